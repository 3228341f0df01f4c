//! Inputs for tests, drawn from a seeded source: stores, damage, orders of
//! demand 3, lengths and files.
//!
//! Damage is drawn both at random and with malice: crowded into few groups,
//! at shared places, in chains that open one line at a time, as correct lines
//! that aren't the ones written.

pub mod forecast;
pub mod wear;

use crate::line::{self, SPARE};
use crate::random::Random;
use crate::{
    DATA_BYTES, DATA_PLACES, HAMMING_PLACES, LINE_BYTES, Out, PLACES, PROTECTED_PLACES, answer,
    file, make_tables, repair, write_line,
};

/// A store: its sides, its lines and both tables as bytes.
#[derive(Clone, Debug, PartialEq, Eq)]
pub struct Store {
    /// The rows.
    pub rows: usize,
    /// The columns.
    pub columns: usize,
    /// The lines, one after another.
    pub lines: Vec<u8>,
    /// The parity lines of the rows.
    pub row_table: Vec<u8>,
    /// The parity lines of the columns.
    pub column_table: Vec<u8>,
}

/// All that repair gives for a store.
#[derive(Clone, Debug, PartialEq, Eq)]
pub struct Outcome {
    /// The answer.
    pub answer: u32,
    /// The passes.
    pub passes: u64,
    /// The lines written out.
    pub lines: Vec<u8>,
    /// The marks written out.
    pub marks: Vec<u8>,
    /// The row table written out.
    pub row_table: Vec<u8>,
    /// The column table written out.
    pub column_table: Vec<u8>,
}

impl Store {
    /// A store of zero lines, with the tables made from them.
    pub fn zero(rows: usize, columns: usize) -> Store {
        Store {
            rows,
            columns,
            lines: vec![0; rows * columns * LINE_BYTES],
            row_table: vec![0; rows * LINE_BYTES],
            column_table: vec![0; columns * LINE_BYTES],
        }
    }

    /// A store written from drawn data, with the tables made from its lines.
    pub fn random(random: &mut Random, rows: usize, columns: usize) -> Store {
        let mut store = Store::zero(rows, columns);
        for line in store.lines.chunks_exact_mut(LINE_BYTES) {
            line.copy_from_slice(&correct_line(random));
        }
        store.tables_anew();
        store
    }

    /// Makes the tables from the lines as they now stand; gives the answer.
    pub fn tables_anew(&mut self) -> u32 {
        make_tables(
            self.rows,
            self.columns,
            &self.lines,
            &mut self.row_table,
            &mut self.column_table,
        )
    }

    /// How many lines there are.
    pub fn count(&self) -> usize {
        self.rows * self.columns
    }

    /// The rows and the columns.
    pub fn sides(&self) -> (usize, usize) {
        (self.rows, self.columns)
    }

    /// The bytes of line n; none if there is no such line.
    pub fn line(&self, n: usize) -> &[u8] {
        self.lines.chunks_exact(LINE_BYTES).nth(n).unwrap_or(&[])
    }

    /// The bytes of line n, to be changed; none if there is no such line.
    pub fn line_mut(&mut self, n: usize) -> &mut [u8] {
        nth_line(&mut self.lines, n)
    }

    /// Flips these places of line n.
    pub fn hurt(&mut self, n: usize, places: &[usize]) {
        flip(self.line_mut(n), places);
    }

    /// Flips these places of a row's parity line.
    pub fn hurt_row_parity(&mut self, row: usize, places: &[usize]) {
        flip(nth_line(&mut self.row_table, row), places);
    }

    /// Flips these places of a column's parity line.
    pub fn hurt_column_parity(&mut self, column: usize, places: &[usize]) {
        flip(nth_line(&mut self.column_table, column), places);
    }

    /// The store's file, for sides that its header can tell.
    pub fn file(&self) -> Vec<u8> {
        let mut bytes = file::header(self.rows as u16, self.columns as u16).to_vec();
        bytes.extend(&self.lines);
        bytes.extend(&self.row_table);
        bytes.extend(&self.column_table);
        bytes
    }

    /// What repair gives for this store, with buffers of the right lengths
    /// that hold `filling` before.
    pub fn repaired(&self, filling: u8) -> Outcome {
        let outcome = Outcome {
            answer: 0,
            passes: 0,
            lines: vec![filling; self.lines.len()],
            marks: vec![filling; self.count()],
            row_table: vec![filling; self.row_table.len()],
            column_table: vec![filling; self.column_table.len()],
        };
        let tables = (&self.row_table[..], &self.column_table[..]);
        outcome.of_repair(self.rows, self.columns, &self.lines, tables)
    }
}

impl Outcome {
    /// The buffers that repair writes, as they stand before this call; answer
    /// and passes are 0.
    pub fn before(call: &Call) -> Outcome {
        Outcome {
            answer: 0,
            passes: 0,
            lines: call.out.clone(),
            marks: call.marks.clone(),
            row_table: call.row_out.clone(),
            column_table: call.column_out.clone(),
        }
    }

    /// What repair gives over these buffers.
    fn of_repair(
        mut self,
        rows: usize,
        columns: usize,
        lines: &[u8],
        (row_table, column_table): (&[u8], &[u8]),
    ) -> Outcome {
        let out = Out {
            lines: &mut self.lines,
            marks: &mut self.marks,
            row_table: &mut self.row_table,
            column_table: &mut self.column_table,
        };
        let given = repair(rows, columns, lines, row_table, column_table, out);
        (self.answer, self.passes) = (given.answer, given.passes);
        self
    }
}

/// The bytes of the line that stands in these as the nth; none if there is no
/// such line.
fn nth_line(bytes: &mut [u8], n: usize) -> &mut [u8] {
    bytes.chunks_exact_mut(LINE_BYTES).nth(n).unwrap_or(&mut [])
}

/// Flips these places of a line's bytes; places that aren't there are passed
/// over.
pub fn flip(line: &mut [u8], places: &[usize]) {
    for &place in places.iter().filter(|&&place| place < PLACES) {
        let (byte, bit) = line::byte_and_bit(place);
        if let Some(byte) = line.get_mut(byte) {
            *byte ^= 1 << bit;
        }
    }
}

/// Sets spare bits of some of the lines in these bytes, about one in `times`.
pub fn set_spare_bits(random: &mut Random, lines: &mut [u8], times: usize) {
    for line in lines.chunks_exact_mut(LINE_BYTES) {
        if random.once_in(times) {
            for (byte, bit) in SPARE {
                line[byte] |= u8::from(random.once_in(2)) << bit;
            }
        }
    }
}

/// The line of drawn data; now and then of data with few bits set, or none.
pub fn correct_line(random: &mut Random) -> [u8; LINE_BYTES] {
    let mut data = [0; DATA_BYTES];
    match random.below(8) {
        0 => {}
        1 => flip(&mut data, &[random.below(DATA_PLACES)]),
        2 => data = [0xFF; DATA_BYTES],
        _ => random.fill(&mut data),
    }
    let mut line = [0; LINE_BYTES];
    write_line(&data, &mut line);
    line
}

/// A place of a line: often any, often among the first few, where places soon
/// meet, and often in the CRC or the Hamming bits.
pub fn place(random: &mut Random) -> usize {
    match random.below(8) {
        0 | 1 => random.below(12),
        2 => random.between(DATA_PLACES, PROTECTED_PLACES - 1),
        3 => random.between(PROTECTED_PLACES, PLACES - 1),
        _ => random.below(PLACES),
    }
}

/// So many different places, rising.
pub fn places(random: &mut Random, count: usize) -> Vec<usize> {
    let mut places = Vec::new();
    while places.len() < count.min(PLACES) {
        let place = place(random);
        if !places.contains(&place) {
            places.push(place);
        }
    }
    places.sort_unstable();
    places
}

/// One to ten different Hamming places, rising.
pub fn hamming_places(random: &mut Random) -> Vec<usize> {
    let mut places: Vec<usize> = (PROTECTED_PLACES..PLACES).collect();
    random.shuffle(&mut places);
    places.truncate(random.between(1, HAMMING_PLACES));
    places.sort_unstable();
    places
}

/// Sides from 2 to `most`, small ones more often.
pub fn sides(random: &mut Random, most: usize) -> (usize, usize) {
    let mut side = || {
        let top = random.between(2, most);
        random.between(2, top)
    };
    (side(), side())
}

/// A length near the right one, and mostly another.
pub fn near_length(random: &mut Random, right: usize) -> usize {
    match random.below(8) {
        0 => 0,
        1 => right.saturating_add(1),
        2 => right.saturating_sub(1),
        3 => right.saturating_add(LINE_BYTES),
        4 => right.saturating_sub(LINE_BYTES),
        5 => right.saturating_mul(2),
        6 => random.below(right.saturating_add(200)),
        _ => right,
    }
}

/// A way of hurting a store.
#[derive(Clone, Copy, Debug, PartialEq, Eq)]
pub enum Damage {
    /// Nothing is hurt.
    Nothing,
    /// Many lines lose one bit each.
    Singles,
    /// Some lines lose up to seven bits.
    Scattered,
    /// The lines of one or two groups lose two to five bits.
    Crowded,
    /// Lines of one group are hurt at places from a handful.
    Overlapping,
    /// Pairs in a group whose mismatch is about six places.
    NearSix,
    /// An open chain through rows and columns, hurt at the same places: each
    /// pass mends only its two ends.
    OpenChain,
    /// The same, but one end runs into a ring that never opens.
    ChainToRing,
    /// Four or more lines in a ring, hurt at the same places.
    Ring,
    /// Lines replaced by correct ones that aren't the ones written.
    Foreign,
    /// The same, and these are then hurt at one to three places.
    NearForeign,
    /// Lines of one group replaced so that the group's sum stays, then hurt.
    Cancelling,
    /// Spare bits set in lines and tables, and a few lines hurt.
    SpareBits,
    /// Lines hurt in one to ten of their Hamming bits and nowhere else, and a
    /// few lines hurt anywhere.
    HammingBits,
    /// Some parity lines of both tables hurt at one to seven places or in
    /// Hamming bits alone, and some lines hurt.
    ParityHurt,
    /// Most parity lines of a table or of both hurt past reading, and lines that
    /// only the others can mend.
    ParityGone,
    /// A parity line replaced by another correct one, which may be hurt too, and
    /// a few lines hurt.
    ParityForeign,
    /// Lines and parity lines of any bytes.
    Noise,
    /// Two of the above, one upon the other.
    Both,
}

impl Damage {
    /// Every way.
    pub const ALL: [Damage; 19] = [
        Damage::Nothing,
        Damage::Singles,
        Damage::Scattered,
        Damage::Crowded,
        Damage::Overlapping,
        Damage::NearSix,
        Damage::OpenChain,
        Damage::ChainToRing,
        Damage::Ring,
        Damage::Foreign,
        Damage::NearForeign,
        Damage::Cancelling,
        Damage::SpareBits,
        Damage::HammingBits,
        Damage::ParityHurt,
        Damage::ParityGone,
        Damage::ParityForeign,
        Damage::Noise,
        Damage::Both,
    ];

    /// Draws a way.
    pub fn any(random: &mut Random) -> Damage {
        Damage::ALL[random.below(Damage::ALL.len())]
    }
}

/// Hurts a store in this way.
pub fn hurt(random: &mut Random, store: &mut Store, way: Damage) {
    if store.count() == 0 {
        return;
    }
    match way {
        Damage::Nothing => {}
        Damage::Singles => {
            for n in 0..store.count() {
                if random.once_in(2) {
                    store.hurt(n, &[place(random)]);
                }
            }
        }
        Damage::Scattered => {
            let times = random.between(1, 6);
            for n in 0..store.count() {
                if random.once_in(times) {
                    let count = random.between(1, 7);
                    store.hurt(n, &places(random, count));
                }
            }
        }
        Damage::Crowded => {
            for _ in 0..random.between(1, 2) {
                for n in part_of_group(random, store) {
                    let count = random.between(2, 5);
                    store.hurt(n, &places(random, count));
                }
            }
        }
        Damage::Overlapping => {
            let size = random.between(2, 8);
            let handful = places(random, size);
            for _ in 0..random.between(1, 3) {
                for n in part_of_group(random, store) {
                    let taken: Vec<usize> = handful
                        .iter()
                        .copied()
                        .filter(|_| random.once_in(2))
                        .collect();
                    store.hurt(n, &taken);
                }
            }
        }
        Damage::NearSix => {
            for _ in 0..random.between(1, 3) {
                let mut group = any_group(random, store.sides());
                random.shuffle(&mut group);
                for (i, &n) in group.iter().take(random.between(2, 3)).enumerate() {
                    let count = if i == 0 { 2 } else { random.between(2, 5) };
                    store.hurt(n, &places(random, count));
                }
            }
        }
        Damage::OpenChain => {
            let by_rows = random.once_in(2);
            let chain = chain(random, store.sides(), by_rows);
            hurt_alike(random, store, &chain);
        }
        Damage::ChainToRing => {
            let hurt = chain_to_ring(random, store.sides());
            hurt_alike(random, store, &hurt);
        }
        Damage::Ring => {
            let ring = ring(random, store.sides());
            hurt_alike(random, store, &ring);
        }
        Damage::Foreign => {
            for _ in 0..random.between(1, 4) {
                let n = random.below(store.count());
                store.line_mut(n).copy_from_slice(&correct_line(random));
            }
        }
        Damage::NearForeign => {
            for _ in 0..random.between(1, 4) {
                let n = random.below(store.count());
                store.line_mut(n).copy_from_slice(&correct_line(random));
                let count = random.between(1, 3);
                store.hurt(n, &places(random, count));
            }
        }
        Damage::Cancelling => {
            let mut group = any_group(random, store.sides());
            random.shuffle(&mut group);
            let change = correct_line(random);
            for &n in group.iter().take(2) {
                for (byte, change) in store.line_mut(n).iter_mut().zip(change) {
                    *byte ^= change;
                }
                let count = random.between(0, 3);
                store.hurt(n, &places(random, count));
            }
        }
        Damage::SpareBits => {
            set_spare_bits(random, &mut store.lines, 2);
            set_spare_bits(random, &mut store.row_table, 2);
            set_spare_bits(random, &mut store.column_table, 2);
            hurt(random, store, Damage::Crowded);
        }
        Damage::HammingBits => {
            let times = random.between(1, 4);
            for n in 0..store.count() {
                if random.once_in(times) {
                    store.hurt(n, &hamming_places(random));
                }
            }
            hurt_a_few(random, store);
        }
        Damage::ParityHurt => {
            hurt_parity(random, store);
            hurt(random, store, Damage::Scattered);
        }
        Damage::ParityGone => lose_parity(random, store),
        Damage::ParityForeign => {
            let mut foreign = correct_line(random);
            let count = random.between(0, 2);
            flip(&mut foreign, &places(random, count));
            let of_rows = random.once_in(2);
            parity_line(random, store, of_rows).copy_from_slice(&foreign);
            hurt_a_few(random, store);
        }
        Damage::Noise => {
            let times = random.between(1, 8);
            for line in store.lines.chunks_exact_mut(LINE_BYTES) {
                if random.once_in(times) {
                    random.fill(line);
                }
            }
            for line in parity_lines(store) {
                if random.once_in(4 * times) {
                    random.fill(line);
                }
            }
        }
        Damage::Both => {
            for _ in 0..2 {
                // The last way is this one.
                let way = Damage::ALL[random.below(Damage::ALL.len() - 1)];
                hurt(random, store, way);
            }
        }
    }
}

/// Hurts a few lines of a group or two, or none.
fn hurt_a_few(random: &mut Random, store: &mut Store) {
    let way = *random
        .pick(&[Damage::Nothing, Damage::Crowded, Damage::NearSix])
        .unwrap_or(&Damage::Nothing);
    hurt(random, store, way);
}

/// Hurts some parity lines: at one to seven places, or in Hamming bits alone.
fn hurt_parity(random: &mut Random, store: &mut Store) {
    let times = random.between(1, 4);
    for line in parity_lines(store) {
        if random.once_in(times) {
            let count = random.between(1, 7);
            let hurt = match random.below(4) {
                0 => hamming_places(random),
                1 => places(random, 1),
                _ => places(random, count),
            };
            flip(line, &hurt);
        }
    }
}

/// Hurts most parity lines of one table or of both past reading, and lines in a
/// way that asks for rows and columns.
fn lose_parity(random: &mut Random, store: &mut Store) {
    let tables = random.between(1, 3);
    let rows = store.rows;
    for (n, line) in parity_lines(store).enumerate() {
        let table = if n < rows { 1 } else { 2 };
        if tables & table != 0 && !random.once_in(4) {
            let count = random.between(2, 5);
            flip(line, &places(random, count));
        }
    }
    let ways = [
        Damage::Singles,
        Damage::Crowded,
        Damage::NearSix,
        Damage::OpenChain,
        Damage::Foreign,
        Damage::Cancelling,
    ];
    let way = *random.pick(&ways).unwrap_or(&Damage::Nothing);
    hurt(random, store, way);
}

/// The lines of a drawn row or column.
fn any_group(random: &mut Random, (rows, columns): (usize, usize)) -> Vec<usize> {
    if random.once_in(2) {
        let row = random.below(rows);
        (0..columns).map(|column| row * columns + column).collect()
    } else {
        let column = random.below(columns);
        (0..rows).map(|row| row * columns + column).collect()
    }
}

/// Some lines of a drawn row or column.
fn part_of_group(random: &mut Random, store: &Store) -> Vec<usize> {
    let mut group = any_group(random, store.sides());
    random.shuffle(&mut group);
    let count = random.between(1, group.len().min(5));
    group.truncate(count);
    group
}

/// A drawn parity line of the row table or of the column table.
fn parity_line<'a>(random: &mut Random, store: &'a mut Store, of_rows: bool) -> &'a mut [u8] {
    if of_rows {
        nth_line(&mut store.row_table, random.below(store.rows))
    } else {
        nth_line(&mut store.column_table, random.below(store.columns))
    }
}

/// All parity lines, those of the rows first.
fn parity_lines(store: &mut Store) -> impl Iterator<Item = &mut [u8]> {
    let of_rows = store.row_table.chunks_exact_mut(LINE_BYTES);
    of_rows.chain(store.column_table.chunks_exact_mut(LINE_BYTES))
}

/// All rows and all columns of these sides, each in a drawn order.
fn mixed(random: &mut Random, (rows, columns): (usize, usize)) -> (Vec<usize>, Vec<usize>) {
    let mut rows: Vec<usize> = (0..rows).collect();
    let mut columns: Vec<usize> = (0..columns).collect();
    random.shuffle(&mut rows);
    random.shuffle(&mut columns);
    (rows, columns)
}

/// Lines of which each shares its row and its column with the one before and
/// the one after, by turns; rows and columns come in drawn order.
///
/// With `by_rows` the first two share a row, and so do the last two; else they
/// share a column. Some row and some column stay free.
fn chain(random: &mut Random, sides: (usize, usize), by_rows: bool) -> Vec<usize> {
    let (rows, columns) = mixed(random, sides);
    let most = rows.len().min(columns.len()).saturating_sub(1);
    let length = if random.once_in(2) {
        most
    } else {
        random.between(1, most).min(most)
    };
    let mut chain = Vec::new();
    for i in 0..length {
        let here = rows[i] * columns.len() + columns[i];
        let across = rows[i] * columns.len() + columns[i + 1];
        let along = rows[i + 1] * columns.len() + columns[i];
        chain.push(here);
        chain.push(if by_rows { across } else { along });
    }
    chain
}

/// The same, but its end runs into a ring.
fn chain_to_ring(random: &mut Random, (rows, columns): (usize, usize)) -> Vec<usize> {
    let mut lines = chain(random, (rows, columns), true);
    if let [.., before, last] = lines[..] {
        // The last two share a row; two lines of a free row, in their columns,
        // close a ring.
        let free = |row: &usize| lines.iter().all(|n| n / columns != *row);
        if let Some(row) = (0..rows).find(free) {
            lines.push(row * columns + before % columns);
            lines.push(row * columns + last % columns);
        }
    }
    lines
}

/// Four or more lines in a ring: two in each of two to six rows and columns.
fn ring(random: &mut Random, sides: (usize, usize)) -> Vec<usize> {
    let (rows, columns) = mixed(random, sides);
    let most = rows.len().min(columns.len());
    let size = random.between(2.min(most), most.min(6));
    let mut ring = Vec::new();
    for i in 0..size {
        ring.push(rows[i] * columns.len() + columns[i]);
        ring.push(rows[i] * columns.len() + columns[(i + 1) % size]);
    }
    ring
}

/// Hurts these lines at the same two to five places.
fn hurt_alike(random: &mut Random, store: &mut Store, hurt: &[usize]) {
    let count = random.between(2, 5);
    let places = places(random, count);
    for &n in hurt {
        store.hurt(n, &places);
    }
}

/// A store of drawn sides up to `most`, hurt in a drawn way.
pub fn hurt_store(random: &mut Random, most: usize) -> Store {
    let (rows, columns) = sides(random, most);
    let mut store = Store::random(random, rows, columns);
    let way = Damage::any(random);
    hurt(random, &mut store, way);
    if random.once_in(4) {
        set_spare_bits(random, &mut store.lines, 3);
        set_spare_bits(random, &mut store.row_table, 3);
        set_spare_bits(random, &mut store.column_table, 3);
    }
    store
}

/// What may be handed to any entry point, right or wrong.
#[derive(Clone, Debug, PartialEq, Eq)]
pub struct Call {
    /// The rows said.
    pub rows: usize,
    /// The columns said.
    pub columns: usize,
    /// The lines.
    pub lines: Vec<u8>,
    /// The row table; making tables and a change write it too.
    pub row_table: Vec<u8>,
    /// The column table, likewise.
    pub column_table: Vec<u8>,
    /// Repair's line buffer; this and the next three are also those that a read
    /// of one line works in.
    pub out: Vec<u8>,
    /// Repair's marks.
    pub marks: Vec<u8>,
    /// The row table that repair writes.
    pub row_out: Vec<u8>,
    /// The column table that repair writes.
    pub column_out: Vec<u8>,
    /// The number of the line to be changed, or of the one wanted.
    pub n: usize,
    /// The data to be written.
    pub data: Vec<u8>,
    /// A single line to be read.
    pub line: Vec<u8>,
    /// The buffer for a single line written or read.
    pub line_out: Vec<u8>,
}

impl Call {
    /// What repair gives for this call.
    pub fn repaired(&self) -> Outcome {
        let tables = (&self.row_table[..], &self.column_table[..]);
        Outcome::before(self).of_repair(self.rows, self.columns, &self.lines, tables)
    }
}

/// A call over this store with right sides and lengths; line number, data, and
/// what stands in the buffers that are only written are drawn.
pub fn call_on(random: &mut Random, store: Store) -> Call {
    let n = random.below(store.count());
    let mut call = Call {
        rows: store.rows,
        columns: store.columns,
        line: store.line(n).to_vec(),
        out: vec![0; store.lines.len()],
        marks: vec![0; store.count()],
        row_out: vec![0; store.row_table.len()],
        column_out: vec![0; store.column_table.len()],
        lines: store.lines,
        row_table: store.row_table,
        column_table: store.column_table,
        n,
        data: vec![0; DATA_BYTES],
        line_out: vec![0; LINE_BYTES],
    };
    for drawn in [
        &mut call.out,
        &mut call.marks,
        &mut call.row_out,
        &mut call.column_out,
        &mut call.data,
        &mut call.line_out,
    ] {
        random.fill(drawn);
    }
    call
}

/// Draws a call over a hurt store of sides up to `most`. Half of the calls
/// have right sides and lengths; in the others some are wrong.
pub fn call(random: &mut Random, most: usize) -> Call {
    let store = hurt_store(random, most);
    let lines = store.count();
    let mut call = call_on(random, store);
    if random.once_in(2) {
        return call;
    }
    // Each thing is right most often, so that late refusals come up too.
    let wrong_sides = [0, 1, 513, 65536, usize::MAX];
    for side in [&mut call.rows, &mut call.columns] {
        if random.once_in(12) {
            *side = random.pick(&wrong_sides).copied().unwrap_or(0);
        } else if random.once_in(12) {
            *side = random.between(2, 512);
        }
    }
    for buffer in [
        &mut call.lines,
        &mut call.row_table,
        &mut call.column_table,
        &mut call.out,
        &mut call.marks,
        &mut call.row_out,
        &mut call.column_out,
        &mut call.data,
        &mut call.line,
        &mut call.line_out,
    ] {
        if random.once_in(10) {
            let length = near_length(random, buffer.len());
            buffer.resize(length, 0xD7);
        }
    }
    match random.below(6) {
        0 => call.n = lines,
        1 => call.n = usize::MAX,
        _ => {}
    }
    call
}

/// A store that needs about half as many passes as its sides: a staircase of
/// lines hurt at the same two places, open at both ends.
pub fn staircase(random: &mut Random, side: usize) -> Store {
    let mut store = Store::random(random, side, side);
    let places = [0, 1];
    for i in 0..side {
        store.hurt(i * side + i, &places);
        if i + 1 < side {
            store.hurt(i * side + i + 1, &places);
        }
    }
    store
}

/// A rectangle written, its damage as demand 3 allows it, and the order.
#[derive(Clone, Debug, PartialEq, Eq)]
pub struct Ordered {
    /// The rectangle written.
    pub written: Store,
    /// The same after damage.
    pub hurt: Store,
    /// The lines with two or more damaged bits, in an order that demand 3
    /// asks for.
    pub order: Vec<usize>,
}

/// The most damaged bits that demand 3 allows in a line or a parity line.
const MOST_DAMAGED: usize = 5;

/// The damaged places of each line and of each parity line.
struct Damaged {
    lines: Vec<Vec<usize>>,
    of_rows: Vec<Vec<usize>>,
    of_columns: Vec<Vec<usize>>,
}

impl Damaged {
    /// Where these two stores of the same sides differ.
    fn between(written: &Store, hurt: &Store) -> Damaged {
        let places = |written: &[u8], hurt: &[u8]| {
            let lines = written.chunks(LINE_BYTES).zip(hurt.chunks(LINE_BYTES));
            lines.map(|(a, b)| differing_places(a, b)).collect()
        };
        Damaged {
            lines: places(&written.lines, &hurt.lines),
            of_rows: places(&written.row_table, &hurt.row_table),
            of_columns: places(&written.column_table, &hurt.column_table),
        }
    }

    /// Of the lines left, the others of line n's row and those of its column;
    /// each only where the group counts: its parity line has at most one
    /// damaged bit.
    fn others_left(&self, left: &[usize], n: usize) -> Vec<Vec<usize>> {
        let columns = self.of_columns.len();
        let mut groups = vec![];
        if self.of_rows[n / columns].len() <= 1 {
            groups.push(left_in_row(left, n, columns));
        }
        if self.of_columns[n % columns].len() <= 1 {
            groups.push(left_in_column(left, n, columns));
        }
        groups
    }

    /// Whether `two` and the damage of `other` are such that a line damaged at
    /// these places may come while that one is left in its group.
    fn mended_beside(&self, two: &[usize], other: usize) -> bool {
        let other = &self.lines[other];
        two.len() == 2 && other.len() <= 4 && two.iter().any(|place| !other.contains(place))
    }

    /// The store after this damage.
    fn done_to(&self, written: &Store) -> Store {
        let mut hurt = written.clone();
        let tables = [
            (&mut hurt.lines, &self.lines),
            (&mut hurt.row_table, &self.of_rows),
            (&mut hurt.column_table, &self.of_columns),
        ];
        for (lines, damage) in tables {
            for (line, places) in lines.chunks_exact_mut(LINE_BYTES).zip(damage) {
                flip(line, places);
            }
        }
        hurt
    }
}

/// Draws a rectangle and damage with an order as demand 3 asks for, of at most
/// `wanted` lines.
pub fn ordered(random: &mut Random, rows: usize, columns: usize, wanted: usize) -> Ordered {
    let written = Store::random(random, rows, columns);
    let mut damaged = Damaged {
        lines: vec![vec![]; written.count()],
        of_rows: vec![vec![]; rows],
        of_columns: vec![vec![]; columns],
    };
    let favoured = Favoured::drawn(random);
    if random.once_in(2) {
        let times = random.between(3, 12);
        for places in damaged.of_rows.iter_mut().chain(&mut damaged.of_columns) {
            *places = parity_damage(random, &favoured.shared, times);
        }
    }
    let order = drawn_order(random, &mut damaged, &favoured, wanted);

    // Any other line may lose one bit.
    let times = random.between(1, 8);
    for (n, places) in damaged.lines.iter_mut().enumerate() {
        if !order.contains(&n) && random.once_in(times) {
            places.push(place(random));
        }
    }
    let mut hurt = damaged.done_to(&written);
    if random.once_in(2) {
        set_spare_bits(random, &mut hurt.lines, 2);
        set_spare_bits(random, &mut hurt.row_table, 2);
        set_spare_bits(random, &mut hurt.column_table, 2);
    }
    Ordered {
        written,
        hurt,
        order,
    }
}

/// Places that damage is drawn from.
struct Favoured {
    /// About half of a line's places are among these.
    shared: Vec<usize>,
    /// Now and then the lines make a chain and are all hurt at these, so that
    /// each pass opens only its ends.
    alike: Option<Vec<usize>>,
}

impl Favoured {
    fn drawn(random: &mut Random) -> Favoured {
        let count = random.between(2, MOST_DAMAGED);
        Favoured {
            shared: places(random, 6),
            alike: random.once_in(3).then(|| places(random, count)),
        }
    }
}

/// Places of a parity line: mostly none, as often one as two to five.
fn parity_damage(random: &mut Random, shared: &[usize], times: usize) -> Vec<usize> {
    let count = random.between(2, MOST_DAMAGED);
    match random.below(2 * times) {
        0 | 1 => vec![place(random)],
        2 => drawn_near(random, shared, count),
        3 => {
            let mut places = hamming_places(random);
            places.truncate(MOST_DAMAGED);
            places
        }
        _ => vec![],
    }
}

/// Draws an order of at most `wanted` lines, and the damage of these.
///
/// It is drawn from its end: a line is put before those drawn so far if it may
/// stand there.
fn drawn_order(
    random: &mut Random,
    damaged: &mut Damaged,
    favoured: &Favoured,
    wanted: usize,
) -> Vec<usize> {
    let (rows, columns) = (damaged.of_rows.len(), damaged.of_columns.len());
    let mut order: Vec<usize> = vec![];
    for _ in 0..wanted.saturating_mul(4) {
        if order.len() >= wanted {
            break;
        }
        let n = if favoured.alike.is_some() && !random.once_in(40) {
            next_in_chain(random, &order, rows, columns)
        } else {
            near(random, &order, rows, columns)
        };
        if order.contains(&n) {
            continue;
        }
        if let Some(places) = damage_at_turn(random, damaged, favoured, &order, n) {
            damaged.lines[n] = places;
            order.push(n);
        }
    }
    order.reverse();
    order
}

/// Damage of line n with which it may come before these lines that are left;
/// none if there is no such damage, or none was drawn.
fn damage_at_turn(
    random: &mut Random,
    damaged: &Damaged,
    favoured: &Favoured,
    left: &[usize],
    n: usize,
) -> Option<Vec<usize>> {
    let shared = &favoured.shared;
    let groups = damaged.others_left(left, n);
    if groups.iter().any(Vec::is_empty) {
        let count = random.between(2, MOST_DAMAGED);
        let drawn = drawn_near(random, shared, count);
        return Some(favoured.alike.clone().unwrap_or(drawn));
    }
    // Exactly two damaged bits, one other left in the group.
    let one_other = groups.into_iter().filter(|others| others.len() == 1);
    let others: Vec<usize> = one_other.flatten().collect();
    let &other = random.pick(&others)?;
    let two = drawn_near(random, shared, 2);
    damaged.mended_beside(&two, other).then_some(two)
}

/// A line in the row or column of one of these, mostly.
fn near(random: &mut Random, lines: &[usize], rows: usize, columns: usize) -> usize {
    let (row, column) = (random.below(rows), random.below(columns));
    match random.pick(lines) {
        Some(n) if random.once_in(3) => n / columns * columns + column,
        Some(n) if random.once_in(2) => row * columns + n % columns,
        _ => row * columns + column,
    }
}

/// A line of the last one's row in a column that is free, or of its column in
/// a row that is free; any line where nothing is free.
fn next_in_chain(random: &mut Random, order: &[usize], rows: usize, columns: usize) -> usize {
    let last = order.last().copied().unwrap_or(0);
    let next = if order.len().is_multiple_of(2) {
        let used = |row: &usize| order.iter().any(|n| n / columns == *row);
        let free: Vec<usize> = (0..rows).filter(|row| !used(row)).collect();
        random.pick(&free).map(|row| row * columns + last % columns)
    } else {
        let used = |column: &usize| order.iter().any(|n| n % columns == *column);
        let free: Vec<usize> = (0..columns).filter(|column| !used(column)).collect();
        random
            .pick(&free)
            .map(|column| last / columns * columns + column)
    };
    next.unwrap_or_else(|| random.below(rows * columns))
}

/// So many different places, rising, about half of them shared ones.
fn drawn_near(random: &mut Random, shared: &[usize], count: usize) -> Vec<usize> {
    let mut drawn = Vec::new();
    while drawn.len() < count.min(PLACES) {
        let next = if random.once_in(2) {
            random.pick(shared).copied().unwrap_or(0)
        } else {
            place(random)
        };
        if !drawn.contains(&next) {
            drawn.push(next);
        }
    }
    drawn.sort_unstable();
    drawn
}

fn left_in_row(left: &[usize], n: usize, columns: usize) -> Vec<usize> {
    let same_row = |&m: &usize| m != n && m / columns == n / columns;
    left.iter().copied().filter(same_row).collect()
}

fn left_in_column(left: &[usize], n: usize, columns: usize) -> Vec<usize> {
    let same_column = |&m: &usize| m != n && m % columns == n % columns;
    left.iter().copied().filter(same_column).collect()
}

/// Whether a store hurt is what demand 3 speaks of, with this order.
pub fn order_fits(written: &Store, hurt: &Store, order: &[usize]) -> bool {
    let mut tables = written.clone();
    if tables.tables_anew() != answer::DONE || tables != *written {
        return false;
    }
    let sizes = |store: &Store| {
        let tables = (store.row_table.len(), store.column_table.len());
        (store.rows, store.columns, store.lines.len(), tables)
    };
    if sizes(hurt) != sizes(written) {
        return false;
    }
    let damaged = Damaged::between(written, hurt);
    let parity = damaged.of_rows.iter().chain(&damaged.of_columns);
    let mut all = damaged.lines.iter().chain(parity);
    if all.any(|places| places.len() > MOST_DAMAGED) {
        return false;
    }

    // In the order stands each line with two or more, once, and no other.
    let mut sorted = order.to_vec();
    sorted.sort_unstable();
    let mut due: Vec<usize> = (0..written.count()).collect();
    due.retain(|&n| damaged.lines[n].len() >= 2);
    if sorted != due {
        return false;
    }
    order.iter().enumerate().all(|(turn, &n)| {
        let groups = damaged.others_left(&order[turn..], n);
        groups.iter().any(|others| match others[..] {
            [] => true,
            [other] => damaged.mended_beside(&damaged.lines[n], other),
            _ => false,
        })
    })
}

/// The places where two lines differ.
pub fn differing_places(a: &[u8], b: &[u8]) -> Vec<usize> {
    let (a, b) = (line::places(a), line::places(b));
    (0..PLACES).filter(|&place| a[place] != b[place]).collect()
}

/// Whether two rows of lines agree in all places, spare bits apart.
pub fn same_places(a: &[u8], b: &[u8]) -> bool {
    let lines =
        |bytes: &[u8]| -> Vec<line::Line> { bytes.chunks(LINE_BYTES).map(line::places).collect() };
    a.len() == b.len() && lines(a) == lines(b)
}

/// A store file of drawn sides, hurt in a drawn way and often spoilt: cut off,
/// with bytes after it, or with another number in its header.
pub fn store_file(random: &mut Random) -> Vec<u8> {
    let most = if random.once_in(20) { 18 } else { 5 };
    let store = hurt_store(random, most);
    let mut file = store.file();
    match random.below(18) {
        0 => file.truncate(random.below(file::HEADER_BYTES + 2)),
        1 => file.truncate(random.below(file.len() + 1)),
        2 => file.truncate(file.len() - 1),
        3 => {
            let more = random.between(1, 2 * LINE_BYTES);
            file.resize(file.len() + more, 0);
        }
        4 => {
            let side = [0, 1, 2, 3, 15, 16, 17, 511, 512, 513, 65535];
            let number = random.pick(&side).map_or(0u16, |&side| side);
            let start = 2 * random.below(2);
            file[start..start + 2].copy_from_slice(&number.to_le_bytes());
        }
        5 => {
            // One number of the contents table, a little off or anything.
            let start = 4 + 4 * random.below(6);
            let bytes = &mut file[start..start + 4];
            if random.once_in(2) {
                random.fill(bytes);
            } else {
                bytes[0] = bytes[0].wrapping_add(1);
            }
        }
        6 => {
            let bit = random.below(8 * file::HEADER_BYTES);
            file[bit / 8] ^= 1 << (bit % 8);
        }
        _ => {}
    }
    file
}
