//! The counter of derivation trees: on grammars whose trees are quickly told, against lists
//! of all trees, and on results that keep all strings but not all trees.

mod listed;

use demand3::grammars::{ALL, from_seed, numbered};
use demand3::readings::Number::{Finite, WithoutEnd};
use demand3::readings::{MOST, Number, Numbers, Table, numbers};
use demand3::strings::{Alphabet, Symbol, alphabet, languages};
use listed::Lister;
use oracle::ask_sheet;
use sheets::names::{Names, is_token};
use sheets::parse::parse;
use sheets::print::{Style, print};
use sheets::tree::{Rule, Sheet};

/// A grammar with its names.
struct Read {
    sheet: Sheet,
    names: Names,
}

impl Read {
    fn new(grammar: &str) -> Self {
        let (sheet, names) = parse(grammar).expect("the notation");
        Read { sheet, names }
    }

    /// What the original makes of it.
    fn joined(&self) -> Read {
        let done = ask_sheet(&self.sheet).expect("no refusal");
        assert!(done.plans() > 0, "{} is joined", self.text());
        Read {
            sheet: done.result,
            names: self.names.clone(),
        }
    }

    fn text(&self) -> String {
        let text = print(&self.sheet, &self.names, Style::Plain);
        text.replace('\n', " ").trim_end().to_owned()
    }

    fn string(&self, text: &str) -> Vec<Symbol> {
        let mut names = self.names.clone();
        let symbol = |word| match word {
            "." => Symbol::Other(0),
            _ if is_token(word) => Symbol::Token(names.number(word)),
            _ => Symbol::Unknown(names.number(word)),
        };
        text.split_whitespace().map(symbol).collect()
    }

    fn rule(&self, name: &str) -> &Rule {
        let number = self.names.clone().number(name);
        let mut rules = self.sheet.rules.iter();
        let found = rules.find(|rule| rule.name == number);
        found.unwrap_or_else(|| panic!("{} has {name}", self.text()))
    }

    fn number(&self, rule: &str, string: &str) -> Number {
        let string = self.string(string);
        let table = Table::parts_of(&string);
        numbers(&self.sheet, &table)[&self.rule(rule).id][table.place(&string)]
    }

    /// The trees of a rule that are told apart where slots are not.
    fn without_slots(&self, rule: &str, string: &str) -> usize {
        let string = self.string(string);
        let lister = Lister::without_slots(&self.sheet);
        lister.trees(self.rule(rule).name, &string).len()
    }
}

/// Of the first rule.
fn number(grammar: &str, string: &str) -> Number {
    Read::new(grammar).number("e", string)
}

#[test]
fn what_is_told_apart_has_several_trees() {
    for (grammar, string, trees) in [
        ("e: X;", "X", 1),
        ("e: X;", "", 0),
        ("e: X | X;", "X", 2),
        ("e: ( X | Y | X ) ( Z | Z );", "X Z", 4),
        ("e: ( ( | ) | );", "", 3),
        ("e: X? X?;", "X", 2),
        ("e: n? X; n: ;", "X", 2),
        ("e: n?? X; n: ;", "X", 2),
        ("e: ( _ )? X;", "X", 2),
        ("e: ( X )* ( X )*;", "X X X", 4),
        ("e: ( X | X )*;", "X X", 4),
        ("e: ( X | X X )+;", "X X X", 3),
        ("e: ( X | X X )+?;", "X X X", 3),
        ("e: X+;", "", 0),
        ("e: _+ X;", "Y", 0),
        ("e: a a a; a: X | ;", "X", 3),
        ("e: a; a: b | b; b: X | X;", "X", 4),
        ("e: - ;", "", 0),
        ("e: ( - )? X;", "X", 1),
    ] {
        assert_eq!(number(grammar, string), Finite(trees), "{grammar}");
    }
}

#[test]
fn what_does_not_matter_makes_no_tree() {
    for grammar in [
        "e: # <o=1> x=X;",
        "e: _ {$x} X &{$x.a};",
        "e !2: a[5]; a !1: X;",
        "e: X?? | Y;",
        "e: X*?;",
        "e: X+ X??;",
    ] {
        assert_eq!(number(grammar, "X"), Finite(1), "{grammar}");
    }
    assert_eq!(number("e: f g;", "f g"), Finite(1), "unknown calls");
    assert_eq!(number("e: . | .~1;", "."), Finite(1), "kind 5");
}

#[test]
fn operands_are_grouped_in_as_many_ways_as_there_are() {
    let before = Read::new("e: a | INT; a: e PLUS e;");
    for read in [&before.joined(), &before] {
        assert_eq!(read.number("e", "INT PLUS INT"), Finite(1));
        assert_eq!(read.number("e", "INT PLUS INT PLUS INT"), Finite(2));
        assert_eq!(
            read.number("e", "INT PLUS INT PLUS INT PLUS INT"),
            Finite(5)
        );
    }
}

/// A sheet, a string, the trees of e for it, and a result with the same strings and other trees.
struct Case {
    sheet: &'static str,
    string: &'static str,
    trees: u64,
    right: &'static str,
    wrong: &'static str,
    trees_of_wrong: u64,
    /// Where slots are not told apart: before, after, and of the wrong result.
    without_slots: [usize; 3],
}

const CASES: [Case; 4] = [
    Case {
        sheet: "e: a | INT; a: e PLUS | e PLUS;",
        string: "INT PLUS PLUS",
        trees: 4,
        right: "e: e PLUS | e PLUS | INT;",
        wrong: "e: e PLUS | INT;",
        trees_of_wrong: 1,
        without_slots: [1, 1, 1],
    },
    Case {
        sheet: "e: a? DOTS | INT; a: e PLUS | ;",
        string: "DOTS",
        trees: 2,
        right: "e: e PLUS DOTS | DOTS | DOTS | INT;",
        wrong: "e: e PLUS DOTS | DOTS | INT;",
        trees_of_wrong: 1,
        without_slots: [2, 1, 1],
    },
    Case {
        sheet: "e: a? DOTS | INT; a: e PLUS;",
        string: "DOTS",
        trees: 1,
        right: "e: e PLUS DOTS | DOTS | INT;",
        wrong: "e: e PLUS DOTS | DOTS | DOTS | INT;",
        trees_of_wrong: 2,
        without_slots: [1, 1, 1],
    },
    Case {
        sheet: "e: a | INT | INT; a: e PLUS;",
        string: "INT",
        trees: 2,
        right: "e: e PLUS | INT | INT;",
        wrong: "e: e PLUS | INT;",
        trees_of_wrong: 1,
        without_slots: [1, 1, 1],
    },
];

#[test]
fn the_pass_keeps_the_numbers() {
    for case in CASES {
        let before = Read::new(case.sheet);
        let after = before.joined();
        assert_eq!(after.text(), case.right);
        for read in [&before, &after] {
            assert_eq!(read.number("e", case.string), Finite(case.trees));
        }
    }
}

/// The strings of e up to four symbols, in an alphabet of both grammars.
fn strings(read: &Read, symbols: &Alphabet) -> u128 {
    languages(&read.sheet, symbols)[&read.rule("e").name]
}

#[test]
fn other_trees_of_the_same_strings_are_seen() {
    for case in CASES {
        let before = Read::new(case.sheet);
        let wrong = numbered_alike(&before, case.wrong);
        let both = [&before.sheet, &wrong.sheet].into_iter();
        let symbols = alphabet(both).expect("three symbols");
        assert_eq!(strings(&before, &symbols), strings(&wrong, &symbols));
        assert_eq!(wrong.number("e", case.string), Finite(case.trees_of_wrong));
        assert_ne!(case.trees, case.trees_of_wrong);
        let table = Table::up_to(4, &symbols);
        let run = [&before, &wrong].map(|read| numbers(&read.sheet, &table));
        assert!(!demand3::readings::agree(&run), "{}", case.wrong);
        let right = [&before, &before.joined()].map(|read| numbers(&read.sheet, &table));
        assert!(demand3::readings::agree(&right), "{}", case.right);
    }
}

/// A grammar whose names have the numbers that they have in another.
fn numbered_alike(other: &Read, grammar: &str) -> Read {
    let text = format!("{} {grammar}", other.text());
    let (mut sheet, names) = parse(&text).expect("the notation");
    sheet.rules.drain(..other.sheet.rules.len());
    sheet.rules[0].id = other.sheet.rules[0].id;
    Read { sheet, names }
}

#[test]
fn without_slots_three_of_the_four_would_not_be_seen() {
    for case in CASES {
        let before = Read::new(case.sheet);
        let all = [&before, &before.joined(), &Read::new(case.wrong)];
        let found = all.map(|read| read.without_slots("e", case.string));
        assert_eq!(found, case.without_slots, "{}", case.sheet);
    }
}

#[test]
fn rules_that_stay_keep_their_numbers_too() {
    let before = Read::new("e: a | e MINUS | INT; a: e PLUS b; b: a? | INT;");
    let after = before.joined();
    assert_eq!(after.sheet.rules.len(), 3);
    for rule in ["e", "a", "b"] {
        for read in [&before, &after] {
            assert_eq!(read.number(rule, "INT PLUS INT PLUS"), Finite(2), "{rule}");
        }
    }
}

#[test]
fn trees_can_be_without_end() {
    for (grammar, string) in [
        ("e: _*;", ""),
        ("e: _+;", ""),
        ("e: ( X | )* Y;", "X Y"),
        ("e: X? n* Y; n: X?;", "Y"),
        ("e: e | X;", "X"),
        ("e: a | X; a: b; b: e;", "X"),
        ("e: e e | ;", ""),
        ("e: e e | X | ;", "X X"),
        ("e: n e n | X; n: Y?;", "X Y"),
        ("e: X a Y; a: a? | Z;", "X Y"),
        ("e: ( e )* | X;", "X"),
        ("e: ( X e? )+ | n e; n: | ;", "X X"),
    ] {
        assert_eq!(number(grammar, string), WithoutEnd, "{grammar}");
    }
    for (grammar, string, trees) in [
        ("e: e | X;", "", 0),
        ("e: e;", "X", 0),
        ("e: e X | e;", "X", 0),
        ("e: ( X | )* Y | Z;", "Z", 1),
        ("e: a Z | X; a: a | Y;", "X", 1),
        ("e: e e | X;", "X X X X", 5),
        ("e: n Y e n | X; n: Y?;", "Y X Y", 1),
    ] {
        assert_eq!(number(grammar, string), Finite(trees), "{grammar}");
    }
}

#[test]
fn trees_without_end_stay_so() {
    for grammar in [
        "e: a | INT; a: e PLUS _*;",
        "e: a | INT; a: e PLUS b; b: b | ;",
    ] {
        let before = Read::new(grammar);
        for read in [&before, &before.joined()] {
            assert_eq!(read.number("e", "INT"), Finite(1), "{grammar}");
            assert_eq!(read.number("e", "INT PLUS"), WithoutEnd, "{grammar}");
        }
    }
}

/// Eight rules, each of which has the next one twice: 2, 4, 16, .. trees.
#[test]
fn a_number_too_large_is_not_without_end() {
    let chain = "e: a a; a: b b; b: c c; c: d d; d: f f; f: g g; g: h h; h: | ;";
    assert_eq!(number(chain, ""), Finite(MOST));
    assert_eq!(Read::new(chain).number("d", ""), Finite(1 << 8));
    assert_eq!(Read::new(chain).number("a", ""), Finite(MOST));
    assert_eq!(Read::new(chain).number("b", ""), Finite(1 << 32));
    let loops = chain.replace("h: | ;", "h: | | h X?;");
    assert_eq!(number(&loops, ""), WithoutEnd);
}

fn each_number<'a>(
    found: &'a Numbers,
    table: &'a Table,
) -> impl Iterator<Item = (u32, &'a [Symbol], Number)> {
    found.iter().flat_map(|(rule, row)| {
        let strings = table.strings().iter().zip(row);
        strings.map(|(string, number)| (*rule, &string[..], *number))
    })
}

/// Compares the number for each rule and string with a list of all trees, where there are
/// not many. How many have several trees.
fn listed_alike(sheet: &Sheet, what: &str) -> usize {
    let Some(symbols) = alphabet([sheet].into_iter()) else {
        return 0;
    };
    let table = Table::up_to(3, &symbols);
    let found = numbers(sheet, &table);
    if each_number(&found, &table).any(|(_, _, number)| number > Finite(60)) {
        return 0;
    }
    let lister = Lister::with_slots(sheet);
    let mut several = 0;
    for (rule, string, number) in each_number(&found, &table) {
        let mut rules = sheet.rules.iter();
        let name = rules.find(|own| own.id == rule).expect("a rule").name;
        let listed = lister.trees(name, string).len();
        assert_eq!(Finite(listed as u64), number, "{what}: {rule} {string:?}");
        several += usize::from(listed > 1);
    }
    several
}

#[test]
fn the_numbers_are_those_of_lists_of_trees() {
    let seeds = (0..3_000).filter_map(|seed| Some((seed, from_seed(seed)?)));
    let several = seeds.map(|(seed, sheet)| listed_alike(&sheet, &format!("seed {seed}")));
    assert!(several.sum::<usize>() > 300);
    let all = (0..ALL).step_by(3_001);
    let several = all.map(|number| listed_alike(&numbered(number), &format!("number {number}")));
    assert!(several.sum::<usize>() > 300);
}
