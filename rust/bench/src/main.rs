//! The proved library's speed beside the peer and a plain copy of the same
//! bytes:
//!
//! ```sh
//! cargo run --release -p bench                # one run
//! cargo run --release -p bench -- --runs 10   # several, each a new process
//! cargo run --release -p bench -- --files     # one run of the last table alone
//! ```
//!
//! Before anything is timed, library and peer are compared once on each store,
//! and on one with hurt parity lines.
//! A round times the library, the peer and the copy one after another, and has
//! its own ratios. A run's figure is the median of its rounds: of the times, and
//! of the rounds' ratios. Prints a table in Markdown, in brackets the quartiles
//! of one run's rounds or the least and the greatest of several runs' figures.
//! Each row's bar is judged by the median; one that isn't met is no failure.
//!
//! A second table has one line wanted, a third wear reports, each row beside a
//! measure of its own, in the same rounds. A fourth has forecasts, beside the
//! library's own repair and the peer's forecast. A fifth has store files, again
//! each row beside a measure of its own.

mod doers;
mod file;
mod forecast;
mod one;
mod runs;
mod stores;
mod table;
mod timing;
mod wear;

use std::array;
use std::env;
use std::hint::black_box;
use std::io;
use std::process::ExitCode;

use doers::{ALL, Doer, compare, compare_writing};
use stores::{Buffers, DATA_BYTES, LINE_BYTES, Store};
use table::{
    Bar, Figures, HEAD, HEAD_FILE, HEAD_FORECAST, HEAD_ONE, HEAD_WEAR, Row, grown, scaled,
};
use timing::{ROUNDS, Range, rounds};

/// The side of the large stores.
const SIDE: usize = 512;

/// The sides by which growth is measured.
const SIDES: [usize; 3] = [32, 128, SIDE];

/// The most that the time for a line may grow by.
const GROWTH: f64 = 1.3;

/// Lines that are written or read in one turn of the single-line figures: few
/// enough to stay in the cache.
const FEW: usize = 1000;

/// Turns in a round of these, since one takes microseconds.
const TURNS: usize = 20;

/// Each repair of a large store: its name, answer, passes and bars.
const REPAIRS: [(&str, u32, u64, &[Bar]); 4] = [
    ("clean", 0, 0, &[Bar::Peer(0.88), Bar::Copies(6.0)]),
    ("lightly hurt", 0, 1, &[Bar::Peer(0.88)]),
    ("hurt past repair", 11, 3, &[Bar::Peer(0.88)]),
    ("chained", 0, 256, &[Bar::Peer(1.0)]),
];

/// The rows of the first table, in the order in which a run gives their rounds.
fn rows() -> Vec<Row> {
    let mut rows = vec![
        Row::new("write a line", Some("ns"), &[Bar::Peer(1.05)]),
        Row::new("read a line", Some("ns"), &[Bar::Peer(1.05)]),
        Row::new("tables", Some("ms"), &[Bar::Peer(0.85)]),
    ];
    for (name, answer, passes, bars) in REPAIRS {
        let name = format!("repair, {name}, answer {answer}, passes {passes}");
        rows.push(Row::new(&name, Some("ms"), bars));
    }
    for side in SIDES {
        let name = format!("repair, clean, {side} by {side}, each line");
        rows.push(Row::new(&name, Some("ns"), &[]));
    }
    let growth = "growth of these, largest / smallest";
    rows.push(Row::new(growth, None, &[Bar::Itself(GROWTH)]));
    rows
}

/// One line at a time, from parts of `width` bytes: nanoseconds for a line.
fn single(from: &[u8], width: usize, work: impl Fn(Doer, &[u8], &mut [u8])) -> Vec<Figures> {
    let mut to = vec![0; FEW * LINE_BYTES];
    let times = rounds(ALL, |doer| {
        for _ in 0..TURNS {
            for (from, to) in from.chunks(width).zip(to.chunks_mut(LINE_BYTES)) {
                work(doer, black_box(from), to);
            }
            black_box(&to);
        }
    });
    scaled(times, (TURNS * FEW) as f64)
}

/// A whole store at once: milliseconds.
fn whole(work: impl FnMut(Doer)) -> Vec<Figures> {
    scaled(rounds(ALL, work), 1e6)
}

/// Repair of clean stores of several sides: nanoseconds for a line of each, and
/// their growth in each round.
fn growth(stores: &[Store; SIDES.len()]) -> Vec<Vec<Figures>> {
    const DOERS: usize = ALL.len();
    let mut buffers = SIDES.map(Buffers::new);
    // Every size in every round, and in each as many lines.
    let things: [_; DOERS * SIDES.len()] = array::from_fn(|i| (i / DOERS, ALL[i % DOERS]));
    let times = rounds(things, |(i, doer)| {
        let turns = (SIDE / SIDES[i]).pow(2);
        for _ in 0..turns {
            black_box(doer.repair(black_box(&stores[i]), &mut buffers[i]));
            black_box(&buffers[i]);
        }
    });
    let each = |times: [f64; DOERS * SIDES.len()]| -> [[f64; DOERS]; SIDES.len()] {
        let line = |size: usize, doer: usize| times[size * DOERS + doer] / (SIDE * SIDE) as f64;
        array::from_fn(|size| array::from_fn(|doer| line(size, doer)))
    };
    grown(times.into_iter().map(each))
}

/// Single lines, tables and repairs of large stores, the first of them clean.
fn plain(data: &[u8], stores: [&Store; REPAIRS.len()]) -> Vec<Vec<Figures>> {
    let clean = stores[0];
    let few_data = &data[..FEW * DATA_BYTES];
    let few_lines = &clean.lines[..FEW * LINE_BYTES];
    let mut buffers = Buffers::new(SIDE);
    let mut given = vec![
        single(few_data, DATA_BYTES, |doer, data, line| {
            black_box(doer.write_line(data, line));
        }),
        single(few_lines, LINE_BYTES, |doer, line, out| {
            black_box(doer.read_line(line, out));
        }),
        whole(|doer| {
            black_box(doer.make_tables(black_box(clean), &mut buffers));
            black_box(&buffers);
        }),
    ];
    given.extend(stores.map(|store| {
        whole(|doer| {
            black_box(doer.repair(black_box(store), &mut buffers));
            black_box(&buffers);
        })
    }));
    given
}

/// One run: for each row of all tables its figures in every round.
fn run() -> io::Result<Vec<Vec<Figures>>> {
    let data = stores::data(SIDE * SIDE);
    let clean_stores = SIDES.map(Store::new);
    let [small, middle, clean] = &clean_stores;
    let hurt = [clean.lightly_hurt(), clean.past_repair(), clean.chained()];
    let [lightly, past_repair, chained] = &hurt;
    let large = [clean, lightly, past_repair, chained];

    compare_writing(&data);
    compare(small, (0, 0));
    compare(middle, (0, 0));
    for (store, (_, answer, passes, _)) in large.into_iter().zip(REPAIRS) {
        compare(store, (answer, passes));
    }
    compare(&clean.parity_hurt(), (0, 1));

    let mut given = plain(&data, large);
    given.extend(growth(&clean_stores));
    given.extend(one::run(clean));
    given.extend(wear::run(clean, past_repair));
    given.extend(forecast::run(clean, past_repair, chained));
    given.extend(file::run(clean, lightly, past_repair)?);
    Ok(given)
}

/// One run of the last table alone.
fn run_files() -> io::Result<Vec<Vec<Figures>>> {
    let clean = Store::new(SIDE);
    file::run(&clean, &clean.lightly_hurt(), &clean.past_repair())
}

/// A table: its head, its rows, and how many figures a row has.
type Table = (&'static str, Vec<Row>, usize);

/// All tables. The figures of the first and of that of forecasts are three times
/// and two ratios, of the others two and one.
fn tables() -> [Table; 5] {
    [
        (HEAD, rows(), 5),
        (HEAD_ONE, one::rows(), 3),
        (HEAD_WEAR, wear::rows(), 3),
        (HEAD_FORECAST, forecast::rows(), 5),
        (HEAD_FILE, file::rows(), 3),
    ]
}

/// Prints these tables.
fn print(tables: &[Table], given: &[Vec<Figures>], range: Range) {
    let mut given = given.iter();
    for (head, rows, _) in tables {
        println!("{head}");
        for (row, of) in rows.iter().zip(&mut given) {
            println!("{}", row.line(of, range));
        }
        println!();
    }
}

/// Prints one run of these tables.
fn print_one(tables: &[Table], given: &[Vec<Figures>]) {
    println!("One run of at most {ROUNDS} rounds; in brackets the quartiles of the rounds:\n");
    print(tables, given, Range::Quartiles);
}

/// Several runs, and the tables over them.
fn several(count: usize) -> io::Result<()> {
    let of_table = |(_, rows, width): (_, Vec<Row>, _)| vec![width; rows.len()];
    let widths: Vec<usize> = tables().into_iter().flat_map(of_table).collect();
    let given = runs::several(count, &widths)?;
    println!(
        "{count} runs of at most {ROUNDS} rounds; in brackets the least and the greatest run:\n"
    );
    print(&tables(), &given, Range::Whole);
    Ok(())
}

fn main() -> ExitCode {
    let words: Vec<String> = env::args().skip(1).collect();
    let words: Vec<&str> = words.iter().map(String::as_str).collect();
    let done = match words[..] {
        [] => run().map(|given| print_one(&tables(), &given)),
        ["--files"] => run_files().map(|given| print_one(&tables()[4..], &given)),
        [runs::FIGURES] => run().map(|given| runs::print_figures(&given)),
        ["--runs", count] => match count.parse() {
            Ok(count @ 1..) => several(count),
            _ => return called_wrong(),
        },
        _ => return called_wrong(),
    };
    match done {
        Ok(()) => ExitCode::SUCCESS,
        Err(error) => {
            eprintln!("bench: {error}");
            ExitCode::FAILURE
        }
    }
}

/// Says how it is called.
fn called_wrong() -> ExitCode {
    eprintln!("bench: it takes no argument, --files, or --runs and a number from 1 up");
    ExitCode::from(2)
}
