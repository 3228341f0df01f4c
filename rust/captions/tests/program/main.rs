//! The program `captions` by real runs, held against its description and against
//! the second implementation.
//!
//! `SUDOKU_PERCENT` sets how many cases are drawn, in percent of the usual number,
//! and `SUDOKU_SEED` the seed.

mod calls;
mod change;
mod check;
mod files;
mod forecast;
mod hurt;
mod inputs;
mod make;
mod mutated;
mod names;
mod output;
mod repair;
mod show;
mod story;
mod support;
mod terminal;
mod unwritable;
mod wear;

use library_tests::{cases, seed};
