//! Generated trees: to bytes and back, to text and back.

mod grow;

use grow::Random;
use notation::{
    Grammar, Names, Sheet, Style, alternatives, parse, parse_bytes, parse_table, print,
};

const TREES: u64 = 2_000;

fn grammar(seed: u64) -> Grammar {
    let mut random = Random(seed);
    Grammar {
        sheet: grow::sheet(&mut random),
        names: table(&mut random),
        ..Grammar::default()
    }
}

/// Texts for some of the numbers, which need not fit the places where these stand.
fn table(random: &mut Random) -> Names {
    let mut pairs = String::new();
    for number in 1..grow::NAMES {
        let text = ["e", "INT", "x_", "stage_1", "T_"][random.below(5) as usize];
        if random.below(2) == 0 {
            pairs += &format!(" {text}{number}={number}");
        }
    }
    let text = format!("%sheet sha256_{};%names{pairs};", "0".repeat(64));
    parse_table(text.as_bytes()).expect("a table").names
}

#[test]
fn trees_are_read_back_from_their_bytes() {
    for seed in 0..TREES {
        let sheet = grammar(seed).sheet;
        assert_eq!(Sheet::of_bytes(&sheet.bytes()), Some(sheet), "seed {seed}");
    }
}

/// Bytes cut short or changed may be no sheet, but nothing goes wrong.
#[test]
fn damaged_bytes_are_read_or_not() {
    let (mut read, mut unread) = (0, 0);
    for seed in 0..TREES {
        let mut random = Random(seed);
        let mut bytes = grammar(seed).sheet.bytes();
        for _ in 0..random.below(3) {
            let place = random.below(bytes.len() as u32) as usize;
            bytes[place] = random.next() as u8;
        }
        bytes.truncate(bytes.len() - random.below(2) as usize * random.below(9) as usize);
        match Sheet::of_bytes(&bytes) {
            Some(sheet) if sheet.bytes() == bytes => read += 1,
            _ => unread += 1,
        }
    }
    assert!(read > 100 && unread > 100, "{read} {unread}");
}

#[test]
fn full_text_gives_the_same_sheet() {
    for seed in 0..TREES {
        let grammar = grammar(seed);
        let text = print(&grammar, Style::Full);
        let back = parse(&text).unwrap_or_else(|fault| panic!("{fault}: {text}"));
        assert_eq!(back.sheet, grammar.sheet, "seed {seed}: {text}");
        let again = print(&back, Style::Full);
        assert_eq!(parse(&again).unwrap().sheet, grammar.sheet, "{again}");
    }
}

#[test]
fn plain_text_comes_back() {
    for seed in 0..TREES {
        let text = print(&grammar(seed), Style::Plain);
        let back = parse(&text).unwrap_or_else(|fault| panic!("{fault}: {text}"));
        assert_eq!(print(&back, Style::Plain), text, "seed {seed}");
    }
}

/// A text with some characters changed is a grammar or has a fault in one of its lines, and nothing goes wrong.
#[test]
fn damaged_texts_are_read_or_not() {
    const MARKS: &[u8] = b"::;;||?*+()[]<>{}&$@~^#!=,.-%_/eXrT7 \n\xff";
    let (mut read, mut unread) = (0, 0);
    for seed in 0..TREES {
        let mut random = Random(seed);
        let mut text = print(&grammar(seed), Style::Full).into_bytes();
        for _ in 0..random.below(4) * u32::from(!text.is_empty()) {
            let place = random.below(text.len() as u32) as usize;
            text[place] = MARKS[random.below(MARKS.len() as u32) as usize];
        }
        let lines = 1 + text.iter().filter(|byte| **byte == b'\n').count();
        match parse_bytes(&text) {
            Ok(grammar) => {
                let again = print(&grammar, Style::Full);
                assert_eq!(parse(&again).unwrap().sheet, grammar.sheet, "{again}");
                read += 1;
            }
            Err(fault) => {
                assert!((1..=lines).contains(&fault.line), "{fault}");
                unread += 1;
            }
        }
    }
    assert!(read > 100 && unread > 100, "{read} {unread}");
}

/// That the trees above have everything in them that the notation can write.
#[test]
fn trees_have_everything() {
    let mut texts = String::new();
    let mut deepest = 0;
    for seed in 0..200 {
        let grammar = grammar(seed);
        for rule in &grammar.sheet.rules {
            alternatives(&rule.alternatives, &mut |node| {
                if let notation::Node::Element(depth, _) = node {
                    deepest = deepest.max(depth);
                }
            });
        }
        texts += &print(&grammar, Style::Full);
    }
    assert!(deepest >= 3);
    for part in [
        "%kind lexer",
        "%kind combined",
        "%preserve",
        "%names",
        "%counters",
        " !3",
        "-;",
        "|;",
        "#",
        "<",
        ">~",
        "{",
        "&{",
        "}",
        "::?",
        ".?",
        "=",
        "[",
        "??",
        "*?",
        "+?",
        " - )",
        "_",
        ".~",
        "@",
        "^",
        "r%",
        "T%",
        "x%",
        "o%",
    ] {
        assert!(texts.contains(part), "{part}");
    }
}
