//! The library against document 01's samples, against the words of requests Q-1
//! to Q-7 and against the second implementation. All tests are one binary, so
//! that it can be run once more under a memory checker.
//!
//! `SUDOKU_PERCENT` sets how many cases are drawn, in percent of the usual
//! number, `SUDOKU_SEED` the seed, and `SUDOKU_MEMCHECK` says that a memory
//! checker watches.

mod crate_over_c;
mod demands;
mod differential;
mod forecast;
mod forecast_type;
mod lookup;
mod marks;
mod paper_order;
mod parity;
mod reading_files;
mod rebuilding;
mod samples;
mod saving_files;
mod store_files;
mod storecheck;
mod tours;
mod vectors;
mod wear;
mod wear_type;
