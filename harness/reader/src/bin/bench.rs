//! `bench`: how long the proved reader takes for a sheet, beside a copy of the same bytes.

use reader::clock::{found, time};
use reader::compare::WORK;
use reader::numbers::NUMBERS;
use reader::proved::proved;
use reader::random::Random;
use reader::tree::{Alternative, Element, Field, Payload, Rule, Sheet, Unit};
use std::hint::black_box;

/// The words of the largest sheet.
const MOST: usize = 8_192;

fn element(payload: Payload, label: Option<(u32, u32)>) -> Element {
    Element {
        id: 0,
        carried: 0,
        quantifier: 0,
        label,
        options: Vec::new(),
        payload,
    }
}

fn alternative(elements: Vec<Element>) -> Alternative {
    Alternative {
        elements,
        ..Alternative::default()
    }
}

/// A rule of three alternatives, as grammars have them: calls, tokens, a label, an action, a block.
fn rule(n: u32) -> Rule {
    let call = |i: u32| element(Payload::Call(1 + (n + i) % 100, 0, 0), None);
    let token = |i: u32| element(Payload::Token(200 + i), None);
    let nested = vec![alternative(vec![token(1), call(1)])];
    let alternatives = vec![
        alternative(vec![
            call(2),
            token(2),
            element(Payload::Call(1, 0, 0), Some((0, 300))),
        ]),
        alternative(vec![
            token(3),
            element(Payload::Block(nested), None),
            token(4),
        ]),
        alternative(vec![
            token(5),
            element(Payload::Action(0, vec![(0, 300)]), None),
        ]),
    ];
    Rule {
        id: n,
        name: 1 + n,
        flags: 0,
        alternatives,
    }
}

/// As many whole rules as `words` have room for, at most 128.
fn unit(words: usize) -> Unit {
    let mut unit = Unit {
        kind: 2,
        ..Unit::default()
    };
    while unit.rules.len() < 128 {
        unit.rules.push(rule(unit.rules.len() as u32));
        if words < Sheet::of(&unit).words.len() {
            unit.rules.pop();
            break;
        }
    }
    unit
}

/// The ids of the five sorts, in the order in which they are given out.
enum Ids {
    Rising,
    Shuffled,
    Wide,
}

/// Different ids for `n` nodes of a sort, and its counter.
fn ids(order: &Ids, n: usize, random: &mut Random) -> (Vec<u32>, u32) {
    let mut dense: Vec<u32> = (0..n as u32).collect();
    match order {
        Ids::Rising => (dense, n as u32),
        Ids::Shuffled => {
            random.shuffle(&mut dense);
            (dense, n as u32)
        }
        Ids::Wide => (random.distinct(n, u32::MAX), u32::MAX),
    }
}

/// A sheet of about `words` words that the reader takes.
fn sheet(words: usize, order: Ids) -> Vec<u8> {
    let mut random = Random::new(1);
    let mut sheet = Sheet::of(&unit(words));
    for sort in 0..5 {
        let places = sheet.places(|f| f == Field::Id(sort));
        let (ids, counter) = ids(&order, places.len(), &mut random);
        places
            .iter()
            .zip(ids)
            .for_each(|(at, id)| sheet.words[*at] = id);
        for at in sheet.places(|f| f == Field::Counter(sort)) {
            sheet.words[at] = counter;
        }
    }
    sheet.bytes()
}

/// How many times as long as a copy the reading takes.
fn show(name: &str, sheet: &[u8]) -> f64 {
    let mut work = vec![0; WORK];
    let mut numbers = vec![0; NUMBERS];
    let reading = time(sheet, || proved(black_box(sheet), &mut work, &mut numbers));
    assert_eq!(numbers[0], 0, "{name} is refused");
    let mut copy = vec![0; sheet.len()];
    let copying = time(sheet, || {
        black_box(&mut copy).copy_from_slice(black_box(sheet))
    });
    println!(
        "{name:<28} {:>6} bytes {reading:>9.2} µs, copied in {copying:.2} µs",
        sheet.len()
    );
    reading / copying
}

fn main() {
    let ratios = [
        show(
            "case 1",
            include_bytes!("../../../../examples/case-1.sheet"),
        ),
        show("11 KB, rising ids", &sheet(2_816, Ids::Rising)),
        show("32 KB, rising ids", &sheet(MOST, Ids::Rising)),
        show("32 KB, shuffled ids", &sheet(MOST, Ids::Shuffled)),
        show("32 KB, ids of 32 bits", &sheet(MOST, Ids::Wide)),
    ];
    println!("{} as a copy", found(&ratios, "the reader takes"));
}
