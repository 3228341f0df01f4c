//! Subtitles: one caption for each cue.

use super::{made, refusal};
use crate::support::shows::show;
use crate::support::text::numbers;

const PLAIN: &str = "\
1
00:00:01,000 --> 00:00:04,000
Who’s there?

2
00:00:05,000 --> 00:00:06,500
Nay, answer me:
stand, and unfold yourself.

3
00:00:07,000 --> 00:00:09,000
Long live the king!
";

const CAPTIONS: [&str; 3] = [
    "Who’s there?",
    "Nay, answer me: stand, and unfold yourself.",
    "Long live the king!",
];

fn expected() -> Vec<u8> {
    show(2, 2, &CAPTIONS).file()
}

#[test]
fn by_name() {
    // Without a number in front it does not look like one.
    let (_, unnumbered) = PLAIN.split_once('\n').expect("a number");
    for name in ["a.srt", "a.SRT", "a.Srt", "b.txt.srt", ".srt"] {
        assert_eq!(made(name, PLAIN, ""), expected(), "{name}");
        assert_eq!(made(name, unnumbered, ""), expected(), "{name}");
    }
    let as_text = made("srt", unnumbered, "");
    assert_ne!(as_text, expected(), "a caption for each line");
}

#[test]
fn by_what_it_looks_like() {
    assert_eq!(made("a.txt", PLAIN, ""), expected());
    assert_eq!(made("a", format!("\n \n{PLAIN}"), ""), expected());
    assert_eq!(made("srt", format!("\u{FEFF}{PLAIN}"), ""), expected());
}

#[test]
fn a_text_that_only_starts_like_one_is_a_text() {
    let store = made("a.txt", "1\nThe first line\n-->\n", "");
    assert_eq!(store, show(2, 2, &["1", "The first line", "-->"]).file());
    let store = made("a.txt", "one\n00:00:01,000 --> 00:00:04,000\n", "");
    assert_eq!(
        store,
        show(2, 2, &["one", "00:00:01,000 --> 00:00:04,000"]).file()
    );
}

#[test]
fn ends_of_lines_and_blank_lines() {
    let spaced = PLAIN.replace("\n\n", "\n\n\n\n");
    assert_eq!(made("a.srt", PLAIN.replace('\n', "\r\n"), ""), expected());
    assert_eq!(made("a.srt", format!("\u{FEFF}{PLAIN}"), ""), expected());
    assert_eq!(made("a.srt", spaced, ""), expected());
    assert_eq!(made("a.srt", PLAIN.trim_end(), ""), expected());
    assert_eq!(made("a.srt", format!("\n\n{PLAIN}\n\n\n"), ""), expected());
}

#[test]
fn numbers_are_not_kept() {
    let other = PLAIN.replace("3\n00:00:07", "17\n00:00:07");
    assert_eq!(made("a.srt", other, ""), expected());
}

#[test]
fn sides_as_given() {
    let store = made("a.srt", PLAIN, "--rows 3 --columns 5");
    assert_eq!(store, show(3, 5, &CAPTIONS).file());
}

#[test]
fn a_cue_without_a_timing_line() {
    let times = "00:00:05,000 --> 00:00:06,500\n";
    let message = refusal("bad.srt", PLAIN.replace(times, ""), "");
    assert!(message.starts_with("captions: bad.srt: "), "{message}");
    let found = numbers(&message);
    // The cue's number stands in line 5, and line 6 should have the times.
    assert!(found.contains(&5) || found.contains(&6), "{message}");
    refusal("text.srt", "To be\nor not to be\n", "");
}

#[test]
fn a_cue_that_is_too_long() {
    let half = "x".repeat(32);
    let longer = PLAIN.replace("Who’s there?", &format!("{half}\n{half}"));
    let message = refusal("long.srt", longer, "");
    assert!(numbers(&message).contains(&65), "{message}");

    let shorter = PLAIN.replace("Who’s there?", &format!("{half}\n{}", &half[1..]));
    let captions = [&format!("{half} {}", &half[1..]), CAPTIONS[1], CAPTIONS[2]];
    assert_eq!(made("fits.srt", shorter, ""), show(2, 2, &captions).file());
}

#[test]
fn bytes_that_are_no_text() {
    let mut bytes = PLAIN.as_bytes().to_vec();
    let last = bytes.len() - 2;
    bytes[last] = 0xFF;
    let message = refusal("bad.srt", bytes, "");
    assert!(numbers(&message).contains(&12), "{message}");

    let control = PLAIN.replace("king", "\x1B[31mking");
    let message = refusal("bad.srt", control, "");
    assert!(!message.contains('\x1B'), "{message:?}");
}
