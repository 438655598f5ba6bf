//! Sheets built to be as deep, as large or as long to work on as a sheet can be.

use reader::random::Random;
use sheets::codec::encode;
use sheets::parse::sheet;
use sheets::tree::{Kind, Sheet};
use sheets::walk;

use crate::outcome::original;

/// The words of the largest sheet, and of a token.
const MOST: usize = 8_192;
const TOKEN: usize = 7;
const DEPTH: usize = 8;
const RULES: usize = 128;

/// `written` with as many tokens more as the words have room for.
fn filled(words: usize, written: impl Fn(usize) -> String) -> Sheet {
    let room = words - encode(&sheet(&written(0))).len();
    sheet(&written(room / TOKEN))
}

/// Of so many tokens those of the part `at` of `parts`.
fn share(tokens: usize, at: usize, parts: usize) -> String {
    "T ".repeat(tokens / parts + usize::from(at < tokens % parts))
}

fn many(alternative: &str, count: usize) -> String {
    vec![alternative; count].join(" | ")
}

fn options(from: usize, count: usize) -> String {
    let all: Vec<String> = (from..from + count).map(|at| format!("o_{at}=1")).collect();
    format!("<{}>", all.join(","))
}

/// `rules` rules in rings of `size`, filled up to so many words.
pub fn rings(rules: usize, size: usize, words: usize) -> Sheet {
    filled(words, |tokens| {
        let rule = |at: usize| {
            let next = at - at % size + (at + 1) % size;
            let base = if at.is_multiple_of(size) { "| B" } else { "" };
            format!("r{at}: r{next} A {} {base};", share(tokens, at, rules))
        };
        (0..rules).map(rule).collect()
    })
}

/// 100 rules, each with the next one in front, labelled and in a block, and no cycle.
pub fn downwards() -> Sheet {
    const HUNDRED: usize = 100;
    filled(MOST, |tokens| {
        let rule = |at: usize| {
            let front = match at + 1 {
                HUNDRED => "START".to_owned(),
                next => format!("r{next}"),
            };
            let share = share(tokens, at, HUNDRED);
            format!("r{at}: x={front} PLUS | ({front} A) {share};")
        };
        (0..HUNDRED).map(rule).collect()
    })
}

/// So many cycles that the budget declines at every turn, and behind them so many that are joined.
pub fn declined_and_joined(declined: usize, joined: usize) -> Sheet {
    filled(MOST, |tokens| {
        let decline = |at| format!("d{at}: s{at} | I; s{at}: s{at} P | d{at} M | N;");
        let join = |at| {
            let share = share(tokens, at, joined);
            format!("e{at}: a{at} | I {share}; a{at}: e{at} P;")
        };
        let front: String = (0..declined).map(decline).collect();
        front + &(0..joined).map(join).collect::<String>()
    })
}

/// A list of 280 alternatives, and ids of no rule that are preserved, so that the result has exactly 32,768 bytes.
pub fn full_result() -> Sheet {
    let (a, b) = (many("b T", 14), many("e T", 20));
    let mut tree = sheet(&format!("e: a | INT; a: {a}; b: {b};"));
    let words = original(&tree).result.len() / 4;
    tree.preserved = (1_000..).take(MOST - words).collect();
    tree
}

/// 64 in each of 32 alternatives.
pub fn options_of_many() -> Sheet {
    let calls = many("e PLUS", 32);
    sheet(&format!("e: {} a | INT; a: {calls};", options(1, 64)))
}

/// All in one alternative, half of them from the satellite: each of these is looked for among the others.
pub fn options_of_one() -> Sheet {
    let (front, behind) = (options(1, 1_024), options(2_000, 1_024));
    sheet(&format!("e: {front} a | INT; a: {behind} e PLUS;"))
}

/// So many alternatives in both rules; the satellite reaches itself.
pub fn looped(alternatives: usize) -> Sheet {
    let again = many("a PLUS", alternatives - 3);
    sheet(&format!("e: a | INT; a: {again} | e MINUS;"))
}

/// 1,024 alternatives from the satellites and one more.
pub fn too_many_alternatives() -> Sheet {
    let (a, b) = (many("b T", 32), many("e T", 32));
    sheet(&format!("e: a | INT; a: {a}; b: {b};"))
}

/// In which order the names of references stand.
#[derive(Clone, Copy, Debug, PartialEq, Eq)]
pub enum Order {
    Rising,
    Falling,
    Shuffled,
}

/// 4,000 references of one action to as many names across the whole range, behind the call that is spliced.
pub fn references(order: Order) -> Sheet {
    let mut names: Vec<u32> = (1..=4_000).map(|at| at * 1_073_000).collect();
    match order {
        Order::Rising => {}
        Order::Falling => names.reverse(),
        Order::Shuffled => Random::new(1).shuffle(&mut names),
    }
    let all: Vec<String> = names.iter().map(|name| format!("$x_{name}")).collect();
    sheet(&format!("e: a {{{}}} | INT; a: e PLUS;", all.join(" ")))
}

/// `inner` in so many blocks.
fn nested(depth: usize, inner: &str) -> String {
    format!("{}{inner}{}", "( ".repeat(depth), " )".repeat(depth))
}

/// A tree of two alternatives in each block, of which one has a label and the other an action.
fn branches(depth: usize) -> String {
    match depth {
        0 => "x=X {$k}".to_owned(),
        _ => format!("( {} | &{{$k::z}} Y )", branches(depth - 1)),
    }
}

/// Other ids for alternatives and elements, all over 32 bits and in no order.
fn scattered(mut tree: Sheet) -> Sheet {
    let mut next = 0_u32;
    let mut other = || {
        next += 1;
        // An odd factor: no two are the same. Half of all words, so that a counter fits above them.
        next.wrapping_mul(0x9e37_79b1) >> 1
    };
    for rule in &mut tree.rules {
        for own in &mut rule.alternatives {
            own.id = other();
        }
        walk::edit(&mut rule.alternatives, &mut |element| {
            element.id = other();
            if let Kind::Block(inner) = &mut element.kind {
                inner.iter_mut().for_each(|own| own.id = other());
            }
        });
    }
    tree.counters.alternative = 1 << 31;
    tree.counters.element = 1 << 31;
    tree
}

/// The deepest and the largest, by name.
pub fn hardest() -> Vec<(&'static str, Sheet)> {
    let grammar = |text: String| sheet(&text);
    let tail = ". ".repeat(127);
    let eight = |rule: &str| many(rule, 8);
    let bare = |at: usize| format!("r{at}: -;");
    vec![
        (
            "blocks 8 deep around a token",
            grammar(format!("e: a {} | INT; a: e PLUS;", nested(DEPTH, "X"))),
        ),
        (
            "blocks 8 deep around a call, in front",
            grammar(format!("e: {} | a | INT; a: e PLUS;", nested(DEPTH, "a"))),
        ),
        (
            "blocks 8 deep in a satellite",
            grammar(format!("e: a | INT; a: e {};", nested(DEPTH, "| X | Y"))),
        ),
        (
            "branches 8 deep, with labels and actions",
            grammar(format!("e: a {} | INT; a: e PLUS;", branches(DEPTH))),
        ),
        (
            "empty blocks 8 deep",
            grammar(format!(
                "e: a {} X | INT; a: e PLUS;",
                nested(DEPTH - 1, "( )")
            )),
        ),
        (
            "128 rules without alternatives",
            grammar((0..RULES).map(bare).collect()),
        ),
        ("128 rules in one ring, 32 KB", rings(RULES, RULES, MOST)),
        (
            "the same with scattered ids",
            scattered(rings(RULES, RULES, MOST)),
        ),
        ("128 rules in 64 cycles, 32 KB", rings(RULES, 2, MOST)),
        ("100 rules without a cycle, 32 KB", downwards()),
        ("the same with scattered ids", scattered(downwards())),
        ("31 cycles declined, 32 joined", declined_and_joined(31, 32)),
        (
            "1,024 alternatives planned",
            grammar(format!(
                "e: | a; a: {}; b: {};",
                many("b", 31),
                many("e", 33)
            )),
        ),
        (
            "1,600 alternatives in a hub",
            grammar(format!("e: {} | ( a ); a: e PLUS;", many("", 1_600))),
        ),
        (
            "8,192 elements planned",
            grammar(format!(
                "e: | a {tail}; a: {}; b: {};",
                eight("b"),
                eight("e")
            )),
        ),
        (
            "1,300 elements in one alternative",
            grammar(format!("e: a {} | INT; a: e PLUS;", ". ".repeat(1_300))),
        ),
        (
            "4,000 references in one action",
            references(Order::Shuffled),
        ),
        ("2,048 options in one alternative", options_of_one()),
        ("2,048 options in 32 alternatives", options_of_many()),
        ("a result of 32,768 bytes", full_result()),
        ("7 by alternatives", too_many_alternatives()),
        (
            "7 by elements",
            grammar(format!(
                "e: | a {tail} | INT; a: {}; b: {};",
                eight("b"),
                eight("e")
            )),
        ),
        ("7 by elements, in a loop", looped(8)),
        (
            "7 by options",
            grammar(format!(
                "e: {} a | INT; a: {};",
                options(1, 63),
                many("e PLUS", 33)
            )),
        ),
        ("a loop of 5 alternatives", looped(5)),
        (
            "9 by bytes",
            grammar(format!(
                "e: a {} | INT; a: {};",
                ". ".repeat(22),
                many("e PLUS", 64)
            )),
        ),
    ]
}
