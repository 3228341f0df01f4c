//! Spoilt texts and subtitles.

use reference::random::Random;

use super::{draw, many};
use crate::make::sides::near_square;
use crate::seed;
use crate::support::expected::opened;
use crate::support::shows::{hamlet, show};
use crate::support::text::HIDDEN;
use crate::support::{Folder, Ran, captions};

/// Some lines of the play.
fn text(random: &mut Random) -> Vec<u8> {
    let hamlet = hamlet();
    let count = random.between(1, 12);
    let lines = (0..count).filter_map(|_| random.pick(&hamlet).cloned());
    let text: Vec<String> = lines.map(|line| line + "\n").collect();
    text.concat().into_bytes()
}

/// Some cues of the play.
fn subtitles(random: &mut Random) -> Vec<u8> {
    let mut cues = String::new();
    for n in 1..=random.between(1, 8) {
        let text = String::from_utf8_lossy(&text(random)).into_owned();
        let first = text.lines().next().unwrap_or_default();
        cues += &format!("{n}\n00:00:0{n},000 --> 00:00:0{n},900\n{first}\n\n");
    }
    cues.into_bytes()
}

/// The captions of a plain text, or none if it is refused; no text that this is
/// asked of has carriage returns.
fn captions_of(text: &[u8]) -> Option<Vec<String>> {
    let text = text.strip_prefix(b"\xEF\xBB\xBF").unwrap_or(text);
    let lines = text.strip_suffix(b"\n").unwrap_or(text);
    if text.is_empty() {
        return None;
    }
    let caption = |line: &[u8]| {
        let line = String::from_utf8(line.to_vec()).ok()?.replace('\t', " ");
        let hidden = |c: char| c.is_control() || HIDDEN.contains(&c);
        let fits = line.len() <= 64 && !line.contains(hidden);
        fits.then_some(line)
    };
    lines.split(|&byte| byte == b'\n').map(caption).collect()
}

/// Whether a text looks like subtitles, or has bytes that lie on the border.
fn unclear(text: &[u8]) -> bool {
    text.contains(&b'\r') || text.windows(5).any(|window| window == b" --> ")
}

/// Makes a store of this text; gives what came of it and the store, if any.
fn made(folder: &Folder, name: &str, text: &[u8]) -> (Ran, Option<Vec<u8>>) {
    folder.write(name, text);
    let run = captions("make -o new").with(name).within(folder.path());
    let ran = run.run();
    assert_eq!(folder.read(name), text, "the text stays");
    let new = folder.at("new").exists().then(|| folder.read("new"));
    assert_eq!(folder.names().len(), 1 + usize::from(new.is_some()));
    assert_eq!(ran.status, i32::from(new.is_none()), "{}", ran.err);
    if new.is_some() {
        assert_eq!(ran.err, "");
        std::fs::remove_file(folder.at("new")).expect("it is there");
    } else {
        let told = format!("captions: {name}: ");
        assert!(ran.message().starts_with(&told), "{}", ran.err);
    }
    (ran, new)
}

#[test]
fn texts() {
    let mut random = Random::new(seed());
    let folder = Folder::new();
    let (mut refused, mut judged) = (0, 0);
    for _ in 0..many() {
        let mut text = text(&mut random);
        draw::spoil(&mut random, &mut text);
        let (_, new) = made(&folder, "a.txt", &text);
        refused += usize::from(new.is_none());
        if unclear(&text) {
            continue;
        }
        judged += 1;
        let expected = captions_of(&text).map(|captions| {
            let (rows, columns) = near_square(captions.len());
            show(rows, columns, &captions).file()
        });
        assert_eq!(new, expected, "{:?}", String::from_utf8_lossy(&text));
    }
    println!(
        "mutated: {} texts, {refused} refused, {judged} judged",
        many()
    );
    assert!(judged > many() / 2 && refused > many() / 10 && refused < many());
}

#[test]
fn spoilt_subtitles() {
    let mut random = Random::new(seed());
    let folder = Folder::new();
    let mut refused = 0;
    for _ in 0..many() {
        let mut text = subtitles(&mut random);
        draw::spoil(&mut random, &mut text);
        let (_, new) = made(&folder, "a.srt", &text);
        refused += usize::from(new.is_none());
        let Some(new) = new else {
            continue;
        };
        // A whole store, whose captions stand in the text.
        let store = opened(&new).expect("a store");
        let mut anew = store.clone();
        assert_eq!(anew.tables_anew(), 0);
        assert_eq!(anew, store);
        let text = String::from_utf8(text).expect("else it is refused");
        for line in store.lines.chunks(reference::LINE_BYTES) {
            let caption = crate::support::text::shown(&line[..64]);
            let words = caption.split(' ').all(|word| text.contains(word));
            assert!(words, "{caption:?} of {text:?}");
        }
    }
    println!("mutated: {} subtitles, {refused} refused", many());
    assert!(refused > many() / 10 && refused < many());
}
