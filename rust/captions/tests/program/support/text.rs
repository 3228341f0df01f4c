//! Captions as text: how the program shows them.

use reference::DATA_BYTES;

/// The 64 data bytes of a caption: its text, then zeros.
pub fn data_of(caption: &str) -> [u8; DATA_BYTES] {
    let mut data = [0; DATA_BYTES];
    data[..caption.len()].copy_from_slice(caption.as_bytes());
    data
}

/// Characters that no caption may have beside control characters: they part lines
/// and paragraphs.
pub const HIDDEN: [char; 2] = ['\u{2028}', '\u{2029}'];

/// Data bytes as they are shown: zeros at the end dropped, control characters and
/// bytes that aren't UTF-8 as `\xNN`, other hidden characters as `\u{NNNN}`.
pub fn shown(data: &[u8]) -> String {
    let length = data
        .iter()
        .rposition(|&byte| byte != 0)
        .map_or(0, |n| n + 1);
    let mut text = String::new();
    for chunk in data[..length].utf8_chunks() {
        for character in chunk.valid().chars() {
            if character.is_control() {
                let mut bytes = [0; 4];
                character.encode_utf8(&mut bytes);
                escape(&bytes[..character.len_utf8()], &mut text);
            } else if HIDDEN.contains(&character) {
                text += &format!("\\u{{{:04X}}}", character as u32);
            } else {
                text.push(character);
            }
        }
        escape(chunk.invalid(), &mut text);
    }
    text
}

fn escape(bytes: &[u8], text: &mut String) {
    for byte in bytes {
        *text += &format!("\\x{byte:02X}");
    }
}

/// A line of output without its colours.
pub fn plain(coloured: &str) -> String {
    let mut parts = coloured.split('\x1b');
    let mut text = parts.next().unwrap_or_default().to_string();
    for part in parts {
        let (codes, rest) = part.split_once('m').expect("a whole sequence");
        let numbers = codes.strip_prefix('[').expect("a sequence of colour");
        let digits = |c: char| c.is_ascii_digit() || c == ';';
        assert!(numbers.chars().all(digits), "{codes:?}");
        text += rest;
    }
    text
}

/// The whole numbers that stand in a text, in order.
pub fn numbers(text: &str) -> Vec<u64> {
    let words = text.split(|c: char| !c.is_ascii_digit());
    words.filter_map(|word| word.parse().ok()).collect()
}

/// A text with runs of spaces as one, and none at its ends.
pub fn squeezed(text: &str) -> String {
    let words: Vec<&str> = text.split_whitespace().collect();
    words.join(" ")
}
