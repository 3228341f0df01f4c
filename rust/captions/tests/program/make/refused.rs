//! Texts that are refused, each bad line by its number.

use super::refusal;
use crate::support::Folder;
use crate::support::run::frugal;
use crate::support::text::{HIDDEN, numbers};

/// The message for a text with good lines up to this number and then a bad one.
fn refused_at(number: usize, bad: &[u8]) -> String {
    let mut text = "good\n".repeat(number - 1).into_bytes();
    text.extend(bad);
    text.extend(b"\ngood\n");
    let message = refusal("bad.txt", text, "");
    assert!(message.starts_with("captions: bad.txt: "), "{message}");
    let found = numbers(&message);
    assert!(found.contains(&(number as u64)), "{message}");
    message
}

#[test]
fn lines_that_are_too_long() {
    for length in [65, 66, 100, 1_000, 100_000] {
        let message = refused_at(703, "x".repeat(length).as_bytes());
        assert!(numbers(&message).contains(&(length as u64)), "{message}");
    }
    // 22 characters of three bytes each.
    let message = refused_at(1, "’".repeat(22).as_bytes());
    assert!(numbers(&message).contains(&66), "{message}");
}

#[test]
fn bytes_that_are_no_text() {
    for bad in [
        &b"\xFF"[..],
        b"caf\xE9",
        b"\xC3",
        b"\xE2\x80",
        b"\xED\xA0\x80",
        b"\xC0\xAF",
        b"\xF4\x90\x80\x80",
    ] {
        refused_at(1, bad);
        refused_at(812, bad);
    }
}

#[test]
fn control_characters() {
    for bad in [
        &b"a\0b"[..],
        b"\x1B[2J",
        b"\x07",
        b"\x7F",
        b"a\x0Bb",
        b"a\x0Cb",
        b"a\rb",
        "a\u{85}b".as_bytes(),
        "\u{9B}2J".as_bytes(),
    ] {
        let message = refused_at(604, bad);
        assert!(!message.contains(['\x1B', '\x07', '\u{9B}']), "{message:?}");
    }
}

#[test]
fn hidden_characters() {
    for hidden in HIDDEN {
        let message = refused_at(604, format!("to {hidden}be").as_bytes());
        let named = format!("a control character, U+{:04X}", hidden as u32);
        assert!(message.contains(&named), "{message}");
        assert!(!message.contains(hidden));
    }
}

/// The numbers below `most` that a message names.
fn named(message: &str, most: u64) -> Vec<u64> {
    let mut named = numbers(message);
    named.retain(|&number| number > 1_000 && number < most);
    named
}

#[test]
fn every_bad_line_is_named() {
    let mut lines = vec!["good".to_string(); 1_100];
    let bad = [1_010, 1_011, 1_050, 1_099, 1_100];
    for number in bad {
        lines[number - 1] = "x".repeat(70);
    }
    let message = refusal("t", lines.join("\n"), "");
    assert_eq!(named(&message, 1_101), bad.map(|n| n as u64), "{message}");
}

#[test]
fn at_most_twenty_are_named() {
    let long = "x".repeat(65) + "\n";
    let text = "good\n".repeat(2_000) + &long.repeat(33);
    let message = refusal("t", text, "");
    let expected: Vec<u64> = (2_001..=2_020).collect();
    assert_eq!(named(&message, 2_034), expected, "{message}");
    let last = message.lines().last().unwrap_or_default();
    assert!(numbers(last).contains(&13), "a count of the rest: {last}");
}

#[test]
fn a_text_without_captions() {
    assert!(refusal("empty.txt", "", "").contains("empty.txt"));
    assert!(refusal("empty.txt", "\u{FEFF}", "").contains("empty.txt"));
    assert!(refusal("empty.srt", "", "").contains("empty.srt"));
    assert!(refusal("empty.srt", "\n\n\n", "").contains("empty.srt"));
}

#[test]
fn a_text_without_end() {
    // One line that never ends, lines without number, and zero bytes.
    let texts = [
        vec![b'x'; 1 << 16],
        b"caption\n".repeat(1 << 13),
        vec![0; 1 << 16],
    ];
    for bytes in texts {
        let folder = Folder::new();
        let run = frugal("make - -o new.store").within(folder.path());
        let message = run.run_endless(&bytes).refused();
        assert!(!message.contains("memory"), "{message}");
        assert!(folder.names().is_empty());
    }
}
