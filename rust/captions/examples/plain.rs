//! What the program's speed is measured by: reads a store file, calls the
//! library and, with a second name, writes the repaired store as safely as the
//! program does.
//!
//! ```sh
//! cargo run --release -p captions --example plain -- FILE [NEW]
//! ```

use std::env;
use std::error::Error;
use std::fs;

use sudoku::c::{self, Out};
use sudoku::replace_file;

fn main() -> Result<(), Box<dyn Error>> {
    let mut words = env::args_os().skip(1);
    let file = fs::read(words.next().ok_or("no FILE is given")?)?;
    let (answer, layout) = c::open_file(&file);
    if answer != 0 {
        return Err(format!("answer {answer}").into());
    }
    let mut new = vec![0; file.len()];
    let (header, bodies) = new.split_at_mut(layout.lines_offset as usize);
    header.copy_from_slice(&file[..header.len()]);
    let (lines, tables) = bodies.split_at_mut(layout.lines_bytes as usize);
    let (row_table, column_table) = tables.split_at_mut(layout.row_bytes as usize);
    let out = Out {
        lines,
        marks: &mut vec![0; (layout.rows * layout.columns) as usize],
        row_table,
        column_table,
    };
    let (answer, check) = c::check_file(&file, out);
    println!("answer {answer}, {check:?}");
    if let Some(path) = words.next() {
        replace_file(path, &new)?;
    }
    Ok(())
}
