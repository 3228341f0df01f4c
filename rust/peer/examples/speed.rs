//! The peer's speed: one line, and a 512 by 512 store beside a plain copy.
//!
//! Run with `cargo run --release -p peer --example speed`.

use std::hint::black_box;
use std::time::Instant;

const SIDE: usize = 512;
const LINE_BYTES: usize = 70;

/// The least time of several rounds, in nanoseconds.
fn least(rounds: usize, mut work: impl FnMut()) -> f64 {
    (0..rounds)
        .map(|_| {
            let start = Instant::now();
            work();
            start.elapsed().as_nanos() as f64
        })
        .fold(f64::INFINITY, f64::min)
}

/// Fills the bytes with something that isn't regular.
fn fill(bytes: &mut [u8]) {
    let mut state = 1u64;
    for byte in bytes {
        state = state
            .wrapping_mul(6364136223846793005)
            .wrapping_add(1442695040888963407);
        *byte = (state >> 56) as u8;
    }
}

fn flip_two(lines: &mut [u8], n: usize) {
    lines[n * LINE_BYTES] ^= 3;
}

struct Buffers {
    out: Vec<u8>,
    marks: Vec<u8>,
    row_table: Vec<u8>,
    column_table: Vec<u8>,
}

impl Buffers {
    fn repaired(&mut self) -> peer::Out<'_> {
        peer::Out {
            lines: &mut self.out,
            marks: &mut self.marks,
            row_table: &mut self.row_table,
            column_table: &mut self.column_table,
        }
    }
}

fn report(name: &str, nanoseconds: f64, copy: f64) {
    let milliseconds = nanoseconds / 1e6;
    let ratio = nanoseconds / copy;
    println!("{name:24} {milliseconds:8.2} ms  {ratio:5.1} copies");
}

fn main() {
    let count = SIDE * SIDE;
    let mut data = vec![0; count * 64];
    fill(&mut data);
    let mut lines = vec![0; count * LINE_BYTES];
    let mut row_table = vec![0; SIDE * LINE_BYTES];
    let mut column_table = vec![0; SIDE * LINE_BYTES];
    let mut buffers = Buffers {
        out: vec![0; lines.len()],
        marks: vec![0; count],
        row_table: row_table.clone(),
        column_table: column_table.clone(),
    };

    // One line at a time over a thousand lines, which stay in the cache.
    let few = 1000;
    let write = least(200, || {
        for (data, line) in data.chunks(64).zip(lines.chunks_mut(LINE_BYTES)).take(few) {
            black_box(peer::write_line(black_box(data), line));
        }
    });
    for (data, line) in data.chunks(64).zip(lines.chunks_mut(LINE_BYTES)) {
        peer::write_line(data, line);
    }
    let read = least(200, || {
        let outs = buffers.out.chunks_mut(LINE_BYTES);
        for (line, out) in lines.chunks(LINE_BYTES).zip(outs).take(few) {
            black_box(peer::read_line(black_box(line), out));
        }
    });
    println!("write_line {:6.1} ns", write / few as f64);
    println!("read_line  {:6.1} ns", read / few as f64);

    let copy = least(20, || {
        buffers.out.copy_from_slice(black_box(&lines));
        black_box(&buffers.out);
    });
    report("copy of the lines", copy, copy);
    let tables = least(20, || {
        let answer = peer::make_tables(SIDE, SIDE, &lines, &mut row_table, &mut column_table);
        assert_eq!(answer, 0);
    });
    report("make_tables", tables, copy);

    let mut repair = |lines: &[u8], rounds| {
        let mut passes = 0;
        let time = least(rounds, || {
            let given = peer::repair(
                SIDE,
                SIDE,
                lines,
                &row_table,
                &column_table,
                buffers.repaired(),
            );
            assert_eq!(given.answer, 0);
            passes = given.passes;
        });
        (time, passes)
    };
    let (clean, _) = repair(&lines, 20);
    report("repair, clean", clean, copy);

    // One line in a hundred loses a bit, one in two thousand two.
    let mut light = lines.clone();
    for n in (0..count).step_by(97) {
        light[n * LINE_BYTES + n % 64] ^= 1;
    }
    for n in (0..count).step_by(2003) {
        flip_two(&mut light, n);
    }
    let (lightly, passes) = repair(&light, 20);
    report(&format!("repair, light, {passes} passes"), lightly, copy);

    // A staircase hurt alike throughout.
    let mut chained = lines.clone();
    for i in 0..SIDE {
        flip_two(&mut chained, i * SIDE + i);
        if i + 1 < SIDE {
            flip_two(&mut chained, i * SIDE + i + 1);
        }
    }
    let (chain, passes) = repair(&chained, 20);
    report(&format!("repair, chain, {passes} passes"), chain, copy);
}
