//! A second reader of sheets (SPECIFICATION 2 and 4), which shares nothing with the
//! first.
//!
//! It answers the lowest refusal that holds (1, 3, 4, 5 or 6), or the sheet's parts. Refusal 2 is
//! about lent buffers, and this reader is lent none.

use std::ops::RangeInclusive;

use crate::form::Form;

pub(crate) const BAD_LENGTH: u32 = 1;
const BAD_TRAILER: u32 = 3;
const BAD_RECORD: u32 = 4;
const SHARED: u32 = 5;
const NOT_BELOW_COUNTER: u32 = 6;

pub(crate) const WORD_BYTES: usize = 4;
pub(crate) const TRAILER_WORDS: usize = 8;
/// In bytes.
pub(crate) const LONGEST: usize = 32_768;
const SHEET_BYTES: RangeInclusive<usize> = TRAILER_WORDS * WORD_BYTES..=LONGEST;
const MAX_RULES: usize = 128;
const MAX_DEPTH: u32 = 8;

const UNIT_KINDS: RangeInclusive<u32> = 1..=3;
const NAMES: RangeInclusive<u32> = 1..=4_294_967_295;
const RULE_FLAGS: RangeInclusive<u32> = 0..=3;
const ALTERNATIVE_FLAGS: RangeInclusive<u32> = 0..=1;
const QUANTIFIERS: RangeInclusive<u32> = 0..=6;
const REFERENCE_KINDS: RangeInclusive<u32> = 0..=2;

/// An element's third word is its kind plus this many times its quantifier.
const QUANTIFIER_STEP: u32 = 256;

const EPSILON: u32 = 0;
const ACTION: u32 = 1;
const PREDICATE: u32 = 2;
const CALL: u32 = 3;
const TOKEN: u32 = 4;
const OTHER_TERMINAL: u32 = 5;
const BLOCK: u32 = 6;
const END_OF_INPUT: u32 = 7;

// The five sorts of counted ids, in the order of the trailer's counters.
const ALTERNATIVES: usize = 0;
const ELEMENTS: usize = 1;
const LABELS: usize = 2;
const ACTIONS: usize = 3;
const PREDICATES: usize = 4;
const SORTS: usize = 5;

/// A rule as it was met: `place` is the index of its first word.
#[derive(Clone, Debug, PartialEq, Eq)]
pub struct Rule {
    pub id: u32,
    pub name: u32,
    pub place: u32,
}

/// What a sheet that is not refused holds. Nested alternatives and elements are counted too.
#[derive(Clone, Debug, PartialEq, Eq)]
pub struct Parts {
    pub kind: u32,          // unit kind
    pub preserved_at: u32,  // word index at which the preserved list starts
    pub preserved: u32,     // how many preserved ids
    pub counters: [u32; 5], // next free alternative, element, label, action, predicate id
    pub rules: Vec<Rule>,   // in the sheet's order
    pub alternatives: u32,  // all of them, nested ones too
    pub elements: u32,      // all of them, nested ones too
}

/// The sheet's parts, or the number of its refusal.
pub fn read(bytes: &[u8]) -> Result<Parts, u32> {
    read_in(Form::NEWEST, bytes)
}

pub fn read_in(form: Form, bytes: &[u8]) -> Result<Parts, u32> {
    read_with_calls(form, bytes).map(|(parts, _calls)| parts)
}

/// The parts, and for each call, nested ones too, the index of the word behind it.
pub(crate) fn read_with_calls(form: Form, bytes: &[u8]) -> Result<(Parts, Vec<usize>), u32> {
    // The checks run from the lowest refusal to the highest, so the first one met is the answer.
    let words = words_of(bytes)?;
    let Some((body, trailer)) = words.split_last_chunk::<TRAILER_WORDS>() else {
        return Err(BAD_LENGTH);
    };
    let [kind, first, second, counters @ ..] = *trailer;
    refuse_unless(UNIT_KINDS.contains(&kind), BAD_TRAILER)?;
    refuse_unless(first as usize == body.len(), BAD_TRAILER)?;
    refuse_unless(second <= first, BAD_TRAILER)?;

    let (records, preserved) = body.split_at(body.len() - second as usize);
    let mut walk = Walk::new(form, records);
    walk.read_rules()?;
    refuse_unless(is_rising(preserved), BAD_RECORD)?;

    refuse_unless(walk.shares_nothing(), SHARED)?;
    refuse_unless(walk.is_below(&counters), NOT_BELOW_COUNTER)?;
    let parts = Parts {
        kind,
        preserved_at: first - second,
        preserved: second,
        counters,
        alternatives: walk.ids[ALTERNATIVES].len() as u32,
        elements: walk.ids[ELEMENTS].len() as u32,
        rules: walk.rules,
    };
    Ok((parts, walk.calls))
}

fn refuse_unless(good: bool, refusal: u32) -> Result<(), u32> {
    good.then_some(()).ok_or(refusal)
}

fn words_of(bytes: &[u8]) -> Result<Vec<u32>, u32> {
    let words = bytes.chunks_exact(WORD_BYTES);
    refuse_unless(SHEET_BYTES.contains(&bytes.len()), BAD_LENGTH)?;
    refuse_unless(words.remainder().is_empty(), BAD_LENGTH)?;
    let word = |b: &[u8]| u32::from_le_bytes([b[0], b[1], b[2], b[3]]);
    Ok(words.map(word).collect())
}

/// Whether each value is above the one before it.
fn is_rising(values: &[u32]) -> bool {
    values.windows(2).all(|pair| pair[0] < pair[1])
}

/// Once sorted, values are all different exactly where they rise.
fn are_distinct(values: impl Iterator<Item = u32>) -> bool {
    let mut sorted: Vec<u32> = values.collect();
    sorted.sort_unstable();
    is_rising(&sorted)
}

/// Reads the records in order and keeps what refusals 5 and 6 need, and where calls end.
///
/// The words end where the preserved list starts, so a record that runs into the list is cut short.
/// Every turn of every loop takes a word or refuses, so a huge count ends with the words.
struct Walk<'a> {
    form: Form,
    words: &'a [u32],
    at: usize,
    rules: Vec<Rule>,
    ids: [Vec<u32>; SORTS],
    calls: Vec<usize>,
}

impl<'a> Walk<'a> {
    fn new(form: Form, words: &'a [u32]) -> Walk<'a> {
        Walk {
            form,
            words,
            at: 0,
            rules: Vec::new(),
            ids: Default::default(),
            calls: Vec::new(),
        }
    }

    fn word(&mut self) -> Result<u32, u32> {
        let word = *self.words.get(self.at).ok_or(BAD_RECORD)?;
        self.at += 1;
        Ok(word)
    }

    fn word_in(&mut self, list: RangeInclusive<u32>) -> Result<u32, u32> {
        let word = self.word()?;
        refuse_unless(list.contains(&word), BAD_RECORD)?;
        Ok(word)
    }

    fn keep_id(&mut self, sort: usize) -> Result<(), u32> {
        self.word().map(|id| self.ids[sort].push(id))
    }

    /// The sheet has no rule count: rules follow one another until the words end.
    fn read_rules(&mut self) -> Result<(), u32> {
        while self.at < self.words.len() {
            refuse_unless(self.rules.len() < MAX_RULES, BAD_RECORD)?;
            let place = self.at as u32;
            let id = self.word()?;
            let name = self.word_in(NAMES)?;
            self.rules.push(Rule { id, name, place });
            self.word_in(RULE_FLAGS)?;
            self.read_alternatives(0)?;
        }
        Ok(())
    }

    /// A count and its alternatives; `depth` is the number of blocks around them.
    fn read_alternatives(&mut self, depth: u32) -> Result<(), u32> {
        let count = self.word()?;
        for _ in 0..count {
            self.read_alternative(depth)?;
        }
        Ok(())
    }

    fn read_alternative(&mut self, depth: u32) -> Result<(), u32> {
        self.keep_id(ALTERNATIVES)?;
        let _carried = self.word()?;
        self.word_in(ALTERNATIVE_FLAGS)?;
        let options = self.word()?;
        let elements = self.word()?;
        self.read_options(options)?;
        for _ in 0..elements {
            self.read_element(depth)?;
        }
        Ok(())
    }

    fn read_options(&mut self, count: u32) -> Result<(), u32> {
        for _ in 0..count {
            self.word_in(NAMES)?;
            let _value = self.word()?;
        }
        Ok(())
    }

    fn read_element(&mut self, depth: u32) -> Result<(), u32> {
        self.keep_id(ELEMENTS)?;
        let _carried = self.word()?;
        let packed = self.word()?;
        refuse_unless(
            QUANTIFIERS.contains(&(packed / QUANTIFIER_STEP)),
            BAD_RECORD,
        )?;
        self.read_label()?;
        let options = self.word()?;
        self.read_options(options)?;
        self.read_payload(packed % QUANTIFIER_STEP, depth)
    }

    /// The name tells whether there is a label: a label's id may be 0, its name may not.
    fn read_label(&mut self) -> Result<(), u32> {
        let id = self.word()?;
        let name = self.word()?;
        if name == 0 {
            return refuse_unless(id == 0, BAD_RECORD);
        }
        refuse_unless(NAMES.contains(&name), BAD_RECORD)?;
        self.ids[LABELS].push(id);
        Ok(())
    }

    fn read_payload(&mut self, kind: u32, depth: u32) -> Result<(), u32> {
        match kind {
            EPSILON | OTHER_TERMINAL | END_OF_INPUT => Ok(()),
            ACTION => self.read_code(ACTIONS),
            PREDICATE => self.read_code(PREDICATES),
            CALL => self.read_call(),
            TOKEN => self.word_in(NAMES).map(|_name| ()),
            BLOCK if depth < MAX_DEPTH => self.read_alternatives(depth + 1),
            // A block too deep, or a kind outside the list.
            _ => Err(BAD_RECORD),
        }
    }

    fn read_call(&mut self) -> Result<(), u32> {
        self.word_in(NAMES)?;
        // The arguments, and the precedence where the form has it: any words.
        for _ in 1..self.form.call_words() {
            self.word()?;
        }
        self.calls.push(self.at);
        Ok(())
    }

    /// An action or a predicate: its own id, then its references.
    fn read_code(&mut self, sort: usize) -> Result<(), u32> {
        self.keep_id(sort)?;
        let references = self.word()?;
        for _ in 0..references {
            self.word_in(REFERENCE_KINDS)?;
            self.word_in(NAMES)?;
        }
        Ok(())
    }

    fn shares_nothing(&self) -> bool {
        are_distinct(self.rules.iter().map(|rule| rule.id))
            && are_distinct(self.rules.iter().map(|rule| rule.name))
            && self.ids.iter().all(|ids| are_distinct(ids.iter().copied()))
    }

    /// Whether each id is below its counter. Rule ids have none.
    fn is_below(&self, counters: &[u32; SORTS]) -> bool {
        let mut sorts = self.ids.iter().zip(counters);
        sorts.all(|(ids, counter)| ids.iter().all(|id| id < counter))
    }
}
