//! One call made to both implementations, and all that it gives compared.

use reference::draw::Call;
use sudoku::c::Out;

use crate::{Guarded, Interface, Library, Reference};

/// The entry points.
#[derive(Clone, Copy, Debug, PartialEq, Eq, PartialOrd, Ord)]
pub enum Entry {
    /// Writing a line.
    Write,
    /// Reading a line alone.
    Read,
    /// Making both tables.
    Tables,
    /// Changing a line.
    Change,
    /// Repair.
    Repair,
    /// Reading one line as repair gives it.
    One,
}

impl Entry {
    /// Every entry point.
    pub const ALL: [Entry; 6] = [
        Entry::Write,
        Entry::Read,
        Entry::Tables,
        Entry::Change,
        Entry::Repair,
        Entry::One,
    ];

    /// The answers that it may give.
    pub fn answers(self) -> &'static [u32] {
        match self {
            Entry::Write => &[0, 7],
            Entry::Read => &[0, 5, 7, 10],
            Entry::Tables => &[0, 2, 5, 6, 10],
            Entry::Change => &[0, 2, 5, 6, 7, 8, 13, 14, 10],
            Entry::Repair => &[0, 2, 5, 6, 7, 11, 12],
            Entry::One => &[0, 2, 5, 6, 7, 8, 11],
        }
    }
}

/// The numbers that a call gives; 0 where it gives none.
#[derive(Clone, Copy, Debug, Default, PartialEq, Eq)]
pub struct Numbers {
    /// The answer.
    pub answer: u32,
    /// The mark or the passes.
    pub value: u64,
    /// The number of a bad row or column.
    pub number: u64,
    /// The last step taken for one line.
    pub step: u32,
}

/// What a call gives: its numbers, and every buffer handed in, read or written,
/// as it is after.
#[derive(Debug, PartialEq, Eq)]
struct Given {
    numbers: Numbers,
    buffers: Vec<Vec<u8>>,
}

/// The buffers of a call, those that are written first.
fn buffers(entry: Entry, call: &Call) -> (Vec<&[u8]>, usize) {
    let (lines, rows, columns) = (&call.lines, &call.row_table, &call.column_table);
    match entry {
        Entry::Write => (vec![&call.line_out, &call.data], 1),
        Entry::Read => (vec![&call.line_out, &call.line], 1),
        Entry::Tables => (vec![rows, columns, lines], 2),
        Entry::Change => (vec![lines, rows, columns, &call.data], 3),
        Entry::Repair => {
            let (row_out, column_out) = (&call.row_out, &call.column_out);
            let written: [&[u8]; 4] = [&call.out, &call.marks, row_out, column_out];
            ([&written[..], &[lines, rows, columns]].concat(), 4)
        }
        Entry::One => {
            let (as_repair, written) = buffers(Entry::Repair, call);
            (
                [&[&call.line_out[..]], &as_repair[..]].concat(),
                written + 1,
            )
        }
    }
}

/// Makes the call over these buffers, as [`buffers`] orders them.
fn make(entry: Entry, call: &Call, on: &dyn Interface, buffers: &mut [&mut [u8]]) -> Numbers {
    let (rows, columns) = (call.rows, call.columns);
    let mut given = Numbers::default();
    match (entry, buffers) {
        (Entry::Write, [line, data]) => given.answer = on.write_line(data, line),
        (Entry::Read, [out, line]) => {
            let (answer, mark) = on.read_line(line, out);
            (given.answer, given.value) = (answer, mark.into());
        }
        (Entry::Tables, [of_rows, of_columns, lines]) => {
            given.answer = on.make_tables(rows, columns, lines, of_rows, of_columns);
        }
        (Entry::Change, [lines, of_rows, of_columns, data]) => {
            (given.answer, given.number) =
                on.change_line(rows, columns, lines, of_rows, of_columns, call.n, data);
        }
        (Entry::Repair, [out, marks, row_out, column_out, lines, of_rows, of_columns]) => {
            let out = lent([out, marks, row_out, column_out]);
            (given.answer, given.value) = on.repair(rows, columns, lines, of_rows, of_columns, out);
        }
        (Entry::One, [line, of_repair @ ..]) => given = read_one(call, on, line, of_repair),
        _ => panic!("{entry:?} has other buffers"),
    };
    given
}

/// Reads one line over the line's own buffer and those of a repair.
fn read_one(
    call: &Call,
    on: &dyn Interface,
    line: &mut [u8],
    of_repair: &mut [&mut [u8]],
) -> Numbers {
    let [out, marks, row_out, column_out, lines, of_rows, of_columns] = of_repair else {
        panic!("a read of one line has other buffers");
    };
    let (rows, columns, n) = (call.rows, call.columns, call.n);
    let work = lent([out, marks, row_out, column_out]);
    let (answer, mark, step) =
        on.read_one(rows, columns, lines, of_rows, of_columns, n, work, line);
    Numbers {
        answer,
        value: mark.into(),
        step,
        ..Numbers::default()
    }
}

/// Lines, marks and both tables, to be written.
fn lent<'a>([lines, marks, row_table, column_table]: [&'a mut [u8]; 4]) -> Out<'a> {
    Out {
        lines,
        marks,
        row_table,
        column_table,
    }
}

/// The call on guarded buffers; the guard bytes must stay.
fn guarded(entry: Entry, call: &Call, on: &dyn Interface, shift: usize) -> Given {
    let mut guarded: Vec<Guarded> = Vec::new();
    for (i, content) in buffers(entry, call).0.into_iter().enumerate() {
        guarded.push(Guarded::new(content, shift + 5 * i));
    }
    let mut contents: Vec<&mut [u8]> = guarded.iter_mut().map(Guarded::content_mut).collect();
    let numbers = make(entry, call, on, &mut contents);
    let name = on.name();
    assert!(
        guarded.iter().all(Guarded::intact),
        "{name}, {entry:?}: a guard byte was written"
    );
    Given {
        numbers,
        buffers: guarded.iter().map(|g| g.content().to_vec()).collect(),
    }
}

/// Makes the call on both implementations; gives the numbers that both gave.
///
/// # Panics
///
/// Panics where they differ in anything, where the answer isn't one that the
/// entry point may give, where a guard byte or a buffer that is only read was
/// written, or where a refusal wrote something or gave a value.
pub fn compare(entry: Entry, call: &Call, shift: usize) -> Numbers {
    let library = guarded(entry, call, &Library, shift);
    let reference = guarded(entry, call, &Reference, shift);
    assert!(
        library == reference,
        "{entry:?}, {} by {}: library gives {:?}, reference {:?}, buffers {}",
        call.rows,
        call.columns,
        library.numbers,
        reference.numbers,
        if library.buffers == reference.buffers {
            "equal"
        } else {
            "differ"
        },
    );
    expect_allowed(entry, call, &library);
    library.numbers
}

/// What was given is what the entry point may give: its answer is one of the
/// list, and what that answer leaves alone is as before or 0.
fn expect_allowed(entry: Entry, call: &Call, given: &Given) {
    let Numbers {
        answer,
        value,
        number,
        step,
    } = given.numbers;
    assert!(
        entry.answers().contains(&answer),
        "{entry:?} may not answer {answer}"
    );
    let (before, written) = buffers(entry, call);
    let writes = match answer {
        0 | 11 | 12 => true,
        10 => entry == Entry::Read,
        _ => false,
    };
    for (i, content) in before.into_iter().enumerate() {
        let may_change = writes && i < written;
        assert!(
            may_change || given.buffers[i] == content,
            "{entry:?}, answer {answer}: buffer {i} was written"
        );
    }
    assert!(
        writes || value == 0,
        "{entry:?}, answer {answer}: a value after a refusal"
    );
    assert!(
        matches!(answer, 13 | 14) || number == 0,
        "{entry:?}, answer {answer}: the number of a row or column"
    );
    let steps = if writes && entry == Entry::One {
        1..=3
    } else {
        0..=0
    };
    assert!(
        steps.contains(&step),
        "{entry:?}, answer {answer}: step {step}"
    );
}
