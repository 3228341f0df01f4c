//! The functions as `include/sudoku.h` declares them.

use super::{Check, Layout};

unsafe extern "C" {
    pub fn sudoku_write_line(
        data: *const u8,
        data_len: usize,
        line: *mut u8,
        line_len: usize,
    ) -> u32;
    pub fn sudoku_read_line(
        line: *const u8,
        line_len: usize,
        out: *mut u8,
        out_len: usize,
        mark: *mut u8,
    ) -> u32;
    pub fn sudoku_make_tables(
        rows: usize,
        columns: usize,
        lines: *const u8,
        lines_len: usize,
        row_table: *mut u8,
        row_len: usize,
        column_table: *mut u8,
        column_len: usize,
    ) -> u32;
    pub fn sudoku_change_line(
        rows: usize,
        columns: usize,
        lines: *mut u8,
        lines_len: usize,
        row_table: *mut u8,
        row_len: usize,
        column_table: *mut u8,
        column_len: usize,
        n: usize,
        data: *const u8,
        data_len: usize,
        number: *mut u64,
    ) -> u32;
    pub fn sudoku_repair(
        rows: usize,
        columns: usize,
        lines: *const u8,
        lines_len: usize,
        row_table: *const u8,
        row_len: usize,
        column_table: *const u8,
        column_len: usize,
        out: *mut u8,
        out_len: usize,
        marks: *mut u8,
        marks_len: usize,
        row_out: *mut u8,
        row_out_len: usize,
        column_out: *mut u8,
        column_out_len: usize,
        passes: *mut u64,
    ) -> u32;
    pub fn sudoku_read_one(
        rows: usize,
        columns: usize,
        lines: *const u8,
        lines_len: usize,
        row_table: *const u8,
        row_len: usize,
        column_table: *const u8,
        column_len: usize,
        n: usize,
        out: *mut u8,
        out_len: usize,
        marks: *mut u8,
        marks_len: usize,
        row_out: *mut u8,
        row_out_len: usize,
        column_out: *mut u8,
        column_out_len: usize,
        line: *mut u8,
        line_len: usize,
        mark: *mut u8,
        step: *mut u32,
    ) -> u32;
    pub fn sudoku_forecast(
        rows: usize,
        columns: usize,
        faulty: *const u8,
        faulty_len: usize,
        marks: *mut u8,
        marks_len: usize,
        passes: *mut u64,
    ) -> u32;
    pub fn sudoku_wear_add(
        wear: *mut u64,
        wear_len: usize,
        marks: *const u8,
        marks_len: usize,
        answer: u32,
    ) -> u32;
    pub fn sudoku_wear_compare(
        a: *const u64,
        a_len: usize,
        b: *const u64,
        b_len: usize,
        order: *mut u32,
    ) -> u32;
    pub fn sudoku_open_file(file: *const u8, file_len: usize, layout: *mut Layout) -> u32;
    pub fn sudoku_write_header(
        rows: usize,
        columns: usize,
        header: *mut u8,
        header_len: usize,
    ) -> u32;
    pub fn sudoku_bytes_needed(start: *const u8, start_len: usize) -> usize;
    pub fn sudoku_check_file(
        file: *const u8,
        file_len: usize,
        out: *mut u8,
        out_len: usize,
        marks: *mut u8,
        marks_len: usize,
        row_out: *mut u8,
        row_out_len: usize,
        column_out: *mut u8,
        column_out_len: usize,
        check: *mut Check,
    ) -> u32;
}
