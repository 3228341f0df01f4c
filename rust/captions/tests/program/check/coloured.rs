//! Colours: only for terminals, or where they are asked for.

use super::with_every_mark;
use crate::support::picture::CHARACTERS;
use crate::support::text::plain;
use crate::support::{Folder, captions};

/// What `check` prints for a store with every mark; `more` are its arguments.
fn printed(more: &str, variables: &[(&str, &str)]) -> String {
    let folder = Folder::new();
    folder.write("a.store", with_every_mark(5, 6).file());
    let mut run = captions("check a.store").words(more);
    for (name, value) in variables {
        run = run.set(name, value);
    }
    let ran = run.within(folder.path()).run();
    assert_eq!((ran.status, ran.err.as_str()), (1, ""));
    ran.text().to_string()
}

#[test]
fn never_where_the_output_is_no_terminal() {
    let plain = printed("", &[]);
    assert!(!plain.contains('\x1b'));
    assert_eq!(printed("--color auto", &[]), plain);
    assert_eq!(printed("--color=never", &[]), plain);
    let asked = [("CLICOLOR_FORCE", "1"), ("FORCE_COLOR", "1")];
    assert_eq!(printed("", &asked), plain);
    assert_eq!(printed("", &[("NO_COLOR", "1")]), plain);
}

#[test]
fn always_where_asked() {
    let expected = printed("", &[]);
    let variables: [&[(&str, &str)]; 3] = [&[], &[("NO_COLOR", "1")], &[("TERM", "dumb")]];
    for variables in variables {
        let coloured = printed("--color always", variables);
        assert!(coloured.contains('\x1b'));
        assert_eq!(plain(&coloured), expected);
        assert_eq!(printed("--color=always", variables), coloured);
    }
}

/// The numbers of colour that hold where each character of a line stands.
fn characters(line: &str) -> Vec<(char, Vec<u32>)> {
    let mut held: Vec<u32> = Vec::new();
    let mut characters = Vec::new();
    let mut parts = line.split('\x1b');
    let first = parts.next().unwrap_or_default();
    characters.extend(first.chars().map(|c| (c, vec![])));
    for part in parts {
        let (codes, rest) = part.split_once('m').expect("a whole sequence");
        for code in codes[1..].split(';') {
            match code.parse().unwrap_or(0) {
                0 => held.clear(),
                code => held.push(code),
            }
        }
        held.sort_unstable();
        characters.extend(rest.chars().map(|c| (c, held.clone())));
    }
    characters
}

#[test]
fn each_mark_has_its_colour() {
    // Dim, cyan, blue, yellow, and red and bold.
    let colours: [&[u32]; 5] = [&[2], &[36], &[34], &[33], &[1, 31]];
    let text = printed("--color always", &[]);
    let mut seen = [0; 5];
    for line in text.lines().skip(8) {
        let coloured = characters(line);
        let end = coloured.last().is_none_or(|(_, held)| held.is_empty());
        assert!(line.ends_with("\x1b[0m") || end, "{line:?}");
        for (character, held) in coloured.into_iter().filter(|(_, held)| !held.is_empty()) {
            let mark = CHARACTERS.iter().position(|&c| c == character);
            let mark = mark.unwrap_or_else(|| panic!("{character:?} has a colour: {line:?}"));
            assert_eq!(held, colours[mark], "{line:?}");
            seen[mark] += 1;
        }
    }
    // Each in the picture, and perhaps once more in the legend.
    for (seen, count) in seen.into_iter().zip([22, 1, 2, 1, 4]) {
        assert!(seen == count || seen == count + 1, "{seen} of {count}");
    }
}

#[test]
fn text_around_the_picture_stays_plain() {
    let text = printed("--color always", &[]);
    for line in text.lines().take(8) {
        assert!(!line.contains('\x1b'), "{line:?}");
    }
    let (_, lost) = text.split_once("lost:\n").expect("a list");
    assert!(!lost.contains('\x1b'), "{lost:?}");
}
