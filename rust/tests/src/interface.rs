//! The library and the second implementation, called alike.

use sudoku::c::{Check, Layout, Out};

use crate::by_reference;

/// The thirteen entry points over slices; each gives its answer first.
pub trait Interface {
    /// What failures are told by.
    fn name(&self) -> &'static str;

    /// Writes a line.
    fn write_line(&self, data: &[u8], line: &mut [u8]) -> u32;

    /// Reads a line alone; gives the mark too.
    fn read_line(&self, line: &[u8], out: &mut [u8]) -> (u32, u8);

    /// Makes both tables.
    fn make_tables(
        &self,
        rows: usize,
        columns: usize,
        lines: &[u8],
        row_table: &mut [u8],
        column_table: &mut [u8],
    ) -> u32;

    /// Changes a line; gives the number of a bad row or column too.
    #[allow(clippy::too_many_arguments)]
    fn change_line(
        &self,
        rows: usize,
        columns: usize,
        lines: &mut [u8],
        row_table: &mut [u8],
        column_table: &mut [u8],
        n: usize,
        data: &[u8],
    ) -> (u32, u64);

    /// Repairs; gives the passes too.
    fn repair(
        &self,
        rows: usize,
        columns: usize,
        lines: &[u8],
        row_table: &[u8],
        column_table: &[u8],
        out: Out,
    ) -> (u32, u64);

    /// Reads one line as repair gives it; gives the mark and the last step too.
    #[allow(clippy::too_many_arguments)]
    fn read_one(
        &self,
        rows: usize,
        columns: usize,
        lines: &[u8],
        row_table: &[u8],
        column_table: &[u8],
        n: usize,
        work: Out,
        line: &mut [u8],
    ) -> (u32, u8, u32);

    /// Works out what rebuilding alone would save; gives the passes too.
    fn forecast(&self, rows: usize, columns: usize, faulty: &[u8], marks: &mut [u8]) -> (u32, u64);

    /// Takes a repair result into a wear report.
    fn wear_add(&self, wear: &mut [u64], marks: &[u8], answer: u32) -> u32;

    /// Compares the shares of two wear reports; gives their order too.
    fn wear_compare(&self, a: &[u64], b: &[u64]) -> (u32, u32);

    /// Opens a store file; gives where its parts stand too.
    fn open_file(&self, file: &[u8]) -> (u32, Layout);

    /// Writes the header of a store file.
    fn write_header(&self, rows: usize, columns: usize, header: &mut [u8]) -> u32;

    /// Gives no answer, but how many bytes of a file that begins so have to be
    /// read.
    fn bytes_needed(&self, start: &[u8]) -> usize;

    /// Repairs the store of a file and counts its marks; gives the counts too.
    fn check_file(&self, file: &[u8], out: Out) -> (u32, Check);
}

/// Both implementations, for tests that each has to pass.
pub fn both() -> [&'static dyn Interface; 2] {
    [&Library, &Reference]
}

/// The proved library.
pub struct Library;

impl Interface for Library {
    fn name(&self) -> &'static str {
        "library"
    }

    fn write_line(&self, data: &[u8], line: &mut [u8]) -> u32 {
        sudoku::c::write_line(data, line)
    }

    fn read_line(&self, line: &[u8], out: &mut [u8]) -> (u32, u8) {
        sudoku::c::read_line(line, out)
    }

    fn make_tables(
        &self,
        rows: usize,
        columns: usize,
        lines: &[u8],
        row_table: &mut [u8],
        column_table: &mut [u8],
    ) -> u32 {
        sudoku::c::make_tables(rows, columns, lines, row_table, column_table)
    }

    fn change_line(
        &self,
        rows: usize,
        columns: usize,
        lines: &mut [u8],
        row_table: &mut [u8],
        column_table: &mut [u8],
        n: usize,
        data: &[u8],
    ) -> (u32, u64) {
        sudoku::c::change_line(rows, columns, lines, row_table, column_table, n, data)
    }

    fn repair(
        &self,
        rows: usize,
        columns: usize,
        lines: &[u8],
        row_table: &[u8],
        column_table: &[u8],
        out: Out,
    ) -> (u32, u64) {
        sudoku::c::repair(rows, columns, lines, row_table, column_table, out)
    }

    fn read_one(
        &self,
        rows: usize,
        columns: usize,
        lines: &[u8],
        row_table: &[u8],
        column_table: &[u8],
        n: usize,
        work: Out,
        line: &mut [u8],
    ) -> (u32, u8, u32) {
        sudoku::c::read_one(rows, columns, lines, row_table, column_table, n, work, line)
    }

    fn forecast(&self, rows: usize, columns: usize, faulty: &[u8], marks: &mut [u8]) -> (u32, u64) {
        sudoku::c::forecast(rows, columns, faulty, marks)
    }

    fn wear_add(&self, wear: &mut [u64], marks: &[u8], answer: u32) -> u32 {
        sudoku::c::wear_add(wear, marks, answer)
    }

    fn wear_compare(&self, a: &[u64], b: &[u64]) -> (u32, u32) {
        sudoku::c::wear_compare(a, b)
    }

    fn open_file(&self, file: &[u8]) -> (u32, Layout) {
        sudoku::c::open_file(file)
    }

    fn write_header(&self, rows: usize, columns: usize, header: &mut [u8]) -> u32 {
        sudoku::c::write_header(rows, columns, header)
    }

    fn bytes_needed(&self, start: &[u8]) -> usize {
        sudoku::c::bytes_needed(start)
    }

    fn check_file(&self, file: &[u8], out: Out) -> (u32, Check) {
        sudoku::c::check_file(file, out)
    }
}

/// The second implementation.
pub struct Reference;

impl Interface for Reference {
    fn name(&self) -> &'static str {
        "reference"
    }

    fn write_line(&self, data: &[u8], line: &mut [u8]) -> u32 {
        reference::write_line(data, line)
    }

    fn read_line(&self, line: &[u8], out: &mut [u8]) -> (u32, u8) {
        let read = reference::read_line(line, out);
        (read.answer, read.mark)
    }

    fn make_tables(
        &self,
        rows: usize,
        columns: usize,
        lines: &[u8],
        row_table: &mut [u8],
        column_table: &mut [u8],
    ) -> u32 {
        reference::make_tables(rows, columns, lines, row_table, column_table)
    }

    fn change_line(
        &self,
        rows: usize,
        columns: usize,
        lines: &mut [u8],
        row_table: &mut [u8],
        column_table: &mut [u8],
        n: usize,
        data: &[u8],
    ) -> (u32, u64) {
        let given = reference::change_line(rows, columns, lines, row_table, column_table, n, data);
        (given.answer, given.number)
    }

    fn repair(
        &self,
        rows: usize,
        columns: usize,
        lines: &[u8],
        row_table: &[u8],
        column_table: &[u8],
        out: Out,
    ) -> (u32, u64) {
        let given = reference::repair(rows, columns, lines, row_table, column_table, same(out));
        (given.answer, given.passes)
    }

    fn read_one(
        &self,
        rows: usize,
        columns: usize,
        lines: &[u8],
        row_table: &[u8],
        column_table: &[u8],
        n: usize,
        work: Out,
        line: &mut [u8],
    ) -> (u32, u8, u32) {
        let work = same(work);
        let given =
            reference::read_one(rows, columns, lines, row_table, column_table, n, work, line);
        (given.answer, given.mark, given.step)
    }

    fn forecast(&self, rows: usize, columns: usize, faulty: &[u8], marks: &mut [u8]) -> (u32, u64) {
        let given = reference::forecast(rows, columns, faulty, marks);
        (given.answer, given.passes)
    }

    fn wear_add(&self, wear: &mut [u64], marks: &[u8], answer: u32) -> u32 {
        reference::wear::add(wear, marks, answer)
    }

    fn wear_compare(&self, a: &[u64], b: &[u64]) -> (u32, u32) {
        reference::wear::compare(a, b)
    }

    fn open_file(&self, file: &[u8]) -> (u32, Layout) {
        by_reference::open_file(file)
    }

    fn write_header(&self, rows: usize, columns: usize, header: &mut [u8]) -> u32 {
        by_reference::write_header(rows, columns, header)
    }

    fn bytes_needed(&self, start: &[u8]) -> usize {
        by_reference::bytes_needed(start)
    }

    fn check_file(&self, file: &[u8], out: Out) -> (u32, Check) {
        by_reference::check_file(file, same(out))
    }
}

/// The same buffers for the second implementation.
fn same(out: Out) -> reference::Out {
    reference::Out {
        lines: out.lines,
        marks: out.marks,
        row_table: out.row_table,
        column_table: out.column_table,
    }
}
