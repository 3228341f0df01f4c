//! Reports in words, taken apart.

use super::expected::Checked;
use super::picture::Picture;
use super::text::squeezed;

/// The most lost captions that a report names.
const MOST_NAMED: usize = 100;

/// What `check` or `repair` prints for one store.
#[derive(Debug, Default)]
pub struct Printed {
    /// The first eight lines, without spaces that only line them up.
    pub head: Vec<String>,
    /// The lines of the picture, as they stand.
    pub picture: Vec<String>,
    /// The lines after `lost:`, as they stand; none where that doesn't come.
    pub lost: Option<Vec<String>>,
}

/// The reports of all stores, and the line about all of them.
pub fn reports(text: &str) -> (Vec<Printed>, Option<String>) {
    let mut reports: Vec<Printed> = Vec::new();
    let mut summary = None;
    for line in text.lines().filter(|line| !line.is_empty()) {
        assert_eq!(summary, None, "a line after the summary: {line:?}");
        if is_title(line) {
            reports.push(Printed::default());
        } else if is_summary(line) {
            summary = Some(line.to_string());
            continue;
        }
        let report = reports.last_mut().expect("a title comes first");
        report.take(line);
    }
    (reports, summary)
}

/// The report of the only store.
pub fn report(text: &str) -> Printed {
    let (mut reports, summary) = reports(text);
    assert_eq!((reports.len(), summary), (1, None), "{text}");
    reports.remove(0)
}

fn is_title(line: &str) -> bool {
    !line.starts_with(' ') && line.contains(" columns, ") && line.ends_with(" captions")
}

fn is_summary(line: &str) -> bool {
    line.starts_with(|c: char| c.is_ascii_digit()) && line.contains(" stores: ")
}

impl Printed {
    fn take(&mut self, line: &str) {
        if self.head.len() < 8 {
            self.head.push(squeezed(line));
        } else if let Some(lost) = &mut self.lost {
            lost.push(line.to_string());
        } else if line == "lost:" {
            self.lost = Some(Vec::new());
        } else {
            self.picture.push(line.to_string());
        }
    }

    /// Whether this is the report that the second implementation asks for, apart
    /// from its picture.
    pub fn agrees(&self, name: &str, expected: &Checked) {
        assert_eq!(self.head, expected.head(name));
        let lost = expected.lost();
        let mut lines: Vec<String> = lost
            .iter()
            .take(MOST_NAMED)
            .map(|lost| format!("  {lost}"))
            .collect();
        if lost.len() > MOST_NAMED {
            lines.push(format!("  and {} more", lost.len() - MOST_NAMED));
        }
        let lines = (!lost.is_empty()).then_some(lines);
        assert_eq!(self.lost, lines, "{name}");
    }

    /// The picture taken apart.
    pub fn pictured(&self, expected: &Checked) -> Picture {
        Picture::of(&self.picture, expected.store.columns)
    }
}
