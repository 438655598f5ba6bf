//! Small grammars: from seeds, and all of a kind.

use sheets::blocks::has_end_of_input;
use sheets::codec;
use sheets::form::Form;
use sheets::generate::{PROFILES, Profile, fold_symbols};
use sheets::parse::least_counters;
use sheets::tree::{Alternative, Element, Kind, Rule, Sheet, quantifier};
use sheets::walk;

const MOST_WORDS: usize = 180;

/// The grammar of a seed, with three symbols at most; nothing where it is large.
pub fn from_seed(seed: u64) -> Option<Sheet> {
    of_profiles(seed, |profile| !profile.about_limits && !profile.has_ends)
}

/// The same of the profiles with the end of input.
pub fn from_seed_with_ends(seed: u64) -> Option<Sheet> {
    of_profiles(seed, |profile| profile.has_ends)
}

fn of_profiles(seed: u64, wanted: impl Fn(&Profile) -> bool) -> Option<Sheet> {
    let profiles: Vec<_> = PROFILES.iter().filter(|profile| wanted(profile)).collect();
    let many = profiles.len() as u64;
    let mut sheet = profiles[(seed % many) as usize].sheet(seed / many);
    fold_symbols(&mut sheet, seed % 2 == 1);
    // In every form the same grammars are small.
    let words = codec::encode_in(Form::FIRST, &walk::without_precedences(&sheet)).len();
    (words <= MOST_WORDS).then_some(sheet)
}

/// Elements of the grammars enumerated whole: calls, a symbol, and each optional.
const ELEMENTS: usize = 6;
/// Alternatives of at most two elements.
const ALTERNATIVES: usize = 1 + ELEMENTS + ELEMENTS * ELEMENTS;
/// Rules of one or two alternatives.
const BODIES: usize = ALTERNATIVES + ALTERNATIVES * ALTERNATIVES;

/// The number of grammars of two rules, one or two alternatives each, up to two
/// elements each, out of `e`, `a`, `X`, `e?`, `a?` and `X?`.
pub const ALL: usize = BODIES * BODIES;

pub fn numbered(number: usize) -> Sheet {
    let rules = [(1, number % BODIES), (2, number / BODIES)];
    let mut ids = (10, 20);
    let made = rules.map(|(name, body)| Rule {
        id: name,
        name,
        flags: 0,
        alternatives: alternatives(body, &mut ids),
    });
    let mut sheet = Sheet {
        kind: 2,
        rules: made.into(),
        ..Sheet::default()
    };
    sheet.counters = least_counters(&sheet);
    sheet
}

/// The same grammar with `EOF` for `X?`; nothing where it has none.
pub fn numbered_with_ends(number: usize) -> Option<Sheet> {
    let mut sheet = numbered(number);
    for rule in &mut sheet.rules {
        walk::edit(&mut rule.alternatives, &mut |own| {
            if own.may_be_absent() && matches!(own.kind, Kind::Token(_)) {
                own.kind = Kind::EndOfInput;
                own.quantifier = quantifier::ONE;
            }
        });
    }
    has_end_of_input(&sheet).then_some(sheet)
}

fn alternatives(body: usize, ids: &mut (u32, u32)) -> Vec<Alternative> {
    if body < ALTERNATIVES {
        return vec![alternative(body, ids)];
    }
    let pair = body - ALTERNATIVES;
    vec![
        alternative(pair % ALTERNATIVES, ids),
        alternative(pair / ALTERNATIVES, ids),
    ]
}

fn alternative(number: usize, ids: &mut (u32, u32)) -> Alternative {
    let places = match number {
        0 => vec![],
        _ if number <= ELEMENTS => vec![number - 1],
        _ => vec![
            (number - 1 - ELEMENTS) % ELEMENTS,
            (number - 1 - ELEMENTS) / ELEMENTS,
        ],
    };
    let id = ids.0;
    ids.0 += 1;
    let elements = places
        .into_iter()
        .map(|place| element(place, ids))
        .collect();
    Alternative {
        id,
        elements,
        ..Alternative::default()
    }
}

fn element(place: usize, ids: &mut (u32, u32)) -> Element {
    let kind = match place % 3 {
        2 => Kind::Token(3),
        call => Kind::Call {
            name: 1 + call as u32,
            arguments: 0,
            precedence: 0,
        },
    };
    let mut made = Element::new(kind);
    made.quantifier = if place < 3 {
        quantifier::ONE
    } else {
        quantifier::OPTIONAL
    };
    made.id = ids.1;
    ids.1 += 1;
    made
}
