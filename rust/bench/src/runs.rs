//! Several runs, each by a process of its own: where its memory lies is then
//! drawn anew for each.

use std::env;
use std::io::{self, Error};
use std::process::{Command, Stdio};

use crate::table::{Figures, medians};

/// The argument with which a run prints its figures for another process.
pub const FIGURES: &str = "--figures";

/// Prints the medians of each row's rounds, a row to a line.
pub fn print_figures(rows: &[Vec<Figures>]) {
    for rounds in rows {
        let figures: Vec<String> = medians(rounds).iter().map(f64::to_string).collect();
        println!("{}", figures.join("\t"));
    }
}

/// The figures on such a line.
fn parse(line: &str) -> Option<Figures> {
    line.split('\t').map(|figure| figure.parse().ok()).collect()
}

/// Runs this program so many times; gives for each row its figures in every
/// run.
///
/// # Errors
///
/// A run that fails, or that doesn't give as many figures for each row as these
/// say.
pub fn several(count: usize, widths: &[usize]) -> io::Result<Vec<Vec<Figures>>> {
    let mut gathered = vec![vec![]; widths.len()];
    for run in 1..=count {
        eprintln!("run {run} of {count}");
        let mut program = Command::new(env::current_exe()?);
        let given = program.arg(FIGURES).stderr(Stdio::inherit()).output()?;
        let text = String::from_utf8_lossy(&given.stdout);
        let figures: Option<Vec<Figures>> = text.lines().map(parse).collect();
        let fit = |figures: &Vec<Figures>| figures.iter().map(Vec::len).eq(widths.iter().copied());
        let figures = figures.filter(|figures| given.status.success() && fit(figures));
        let figures = figures.ok_or_else(|| Error::other(format!("run {run} failed")))?;
        for (row, figures) in gathered.iter_mut().zip(figures) {
            row.push(figures);
        }
    }
    Ok(gathered)
}

#[cfg(test)]
mod tests {
    use super::parse;

    #[test]
    fn figures_come_back() {
        let figures = [8.25, 10.5, 2.0, 0.7857142857142857, 4.125];
        let line = figures.map(|figure: f64| figure.to_string()).join("\t");
        assert_eq!(parse(&line), Some(figures.to_vec()));
        assert_eq!(parse("1\t\t3\t4"), None);
        assert_eq!(parse("run\t2\t3\t4\t5"), None);
    }
}
