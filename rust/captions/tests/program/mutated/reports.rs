//! Spoilt wear reports.

use reference::draw::wear as draw_wear;
use reference::random::Random;
use reference::wear;

use super::{draw, many};
use crate::seed;
use crate::support::{Folder, captions};

/// The ten numbers of a text, where it is a report.
fn report(text: &[u8]) -> Option<Vec<u64>> {
    let text = std::str::from_utf8(text).ok()?;
    let number = |word: &str| {
        let digits = word.bytes().all(|byte| byte.is_ascii_digit());
        if digits { word.parse().ok() } else { None }
    };
    let words = text.split_ascii_whitespace().map(number);
    let numbers: Vec<u64> = words.collect::<Option<_>>()?;
    (wear::compare(&numbers, &numbers).0 == 0).then_some(numbers)
}

#[test]
fn reports() {
    let mut random = Random::new(seed());
    let folder = Folder::new();
    let mut refused = 0;
    for _ in 0..many() {
        let numbers = draw_wear::report(&mut random).map(|number| number.to_string());
        let mut text = (numbers.join(" ") + "\n").into_bytes();
        if !random.once_in(3) {
            draw::spoil(&mut random, &mut text);
        }
        folder.write("a.report", &text);
        let run = captions("wear --load a.report --save new");
        let ran = run.within(folder.path()).run();
        assert_eq!(folder.read("a.report"), text);
        match report(&text) {
            Some(numbers) => {
                assert_eq!((ran.status, ran.err.as_str()), (0, ""));
                let saved = String::from_utf8(folder.read("new")).expect("text");
                assert_eq!(report(saved.as_bytes()), Some(numbers));
                std::fs::remove_file(folder.at("new")).expect("it is there");
            }
            None => {
                refused += 1;
                assert!(ran.refused().starts_with("captions: a.report: "));
            }
        }
        assert_eq!(folder.names(), ["a.report"]);
    }
    println!("mutated: {} wear reports, {refused} refused", many());
    assert!(refused > 0 && refused < many());
}
