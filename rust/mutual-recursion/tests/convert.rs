//! Old sheets made sheets of today: what comes out, by which number one is refused, and how what is lent ends.

mod common;

use common::{FAR, alternative, bytes, element, nested, rule, sheet, stored, token, with};
use mutual_recursion::{RESULT_BYTES, Refusal, WORK_BYTES, convert, lent};
use notation::{Alternative, Kind, Sheet};

const JUNK: u8 = 0xa5;
/// A precedence that stands for the words to be left out.
const MARK: u32 = 0xfeed_f00d;

/// e: a | INT;  a: e PLUS e;    with these words behind the two that each call has had from the start.
fn case_1(third: &[u32]) -> Vec<u8> {
    let call = |id, name| element(id, 3, [0, 0], &[&[name, 0], third].concat());
    let named = |id, name| element(id, 4, [0, 0], &[name]);
    let first = rule(
        1,
        1,
        &[
            alternative(10, &[call(20, 2)]),
            alternative(11, &[named(21, 3)]),
        ],
    );
    let inner = [call(22, 1), named(23, 4), call(24, 1)];
    let second = rule(2, 2, &[alternative(12, &inner)]);
    sheet(&[first, second], &[], [13, 25, 0, 0, 0])
}

/// A call as an old sheet has it.
fn call(id: u32) -> Vec<u32> {
    element(id, 3, [0, 0], &[1, 0])
}

/// A sheet of so many bytes with one call, which has this id; behind it stand preserved ids.
fn of_length(length: usize, id: u32) -> Vec<u8> {
    let record = rule(1, 1, &[alternative(0, &[call(id)])]);
    let ids: Vec<u32> = (0..(length / 4 - 8 - record.len()) as u32).collect();
    let made = sheet(&[record], &ids, FAR);
    assert_eq!(made.len(), length);
    made
}

fn number(old: &[u8]) -> u32 {
    convert(old).err().map_or(0, Refusal::number)
}

fn set_precedences(alternatives: &mut [Alternative], word: u32) {
    for element in alternatives.iter_mut().flat_map(|own| &mut own.elements) {
        match &mut element.kind {
            Kind::Call { precedence, .. } => *precedence = word,
            Kind::Block(inner) => set_precedences(inner, word),
            _ => {}
        }
    }
}

fn with_precedences(sheet: &Sheet, word: u32) -> Sheet {
    let mut made = sheet.clone();
    let rules = made.rules.iter_mut();
    rules.for_each(|rule| set_precedences(&mut rule.alternatives, word));
    made
}

/// The words that the sheet had before calls had a precedence.
fn old_words(sheet: &Sheet) -> Vec<u32> {
    let marked = with_precedences(sheet, MARK).words();
    let mut words: Vec<u32> = marked.into_iter().filter(|word| *word != MARK).collect();
    let trailer = words.len() - 8;
    words[trailer + 1] = trailer as u32;
    words
}

#[test]
fn case_1_has_288_bytes() {
    let (old, new) = (case_1(&[]), case_1(&[0]));
    assert_eq!((old.len(), new.len()), (276, 288));
    assert_eq!(convert(&old), Ok(new.clone()));
    assert_eq!(convert(&new), Err(Refusal::BadRecord));
}

/// Each stored sheet as it was written then; what was a sheet already is refused, or grows past the longest.
#[test]
fn stored_sheets_come_out_of_their_old_form() {
    let (mut converted, mut with_calls) = (0, 0);
    for record in stored() {
        let Some(tree) = Sheet::of_bytes(&record.sheet) else {
            continue;
        };
        let (old, new) = (bytes(&old_words(&tree)), with_precedences(&tree, 0).bytes());
        match convert(&old) {
            Ok(made) => {
                assert_eq!(made, new, "{}", record.name);
                converted += 1;
                with_calls += u32::from(old.len() < new.len());
            }
            Err(Refusal::ResultTooLarge) => assert!(new.len() > 32_768, "{}", record.name),
            Err(refusal) => assert_eq!(record.answer.err(), Some(refusal.number())),
        }
    }
    assert!(
        converted > 500 && with_calls > 500,
        "{converted} {with_calls}"
    );
}

#[test]
fn each_refusal_has_its_neighbour() {
    let mut other_kind = case_1(&[]);
    other_kind[276 - 32] = 4;
    let twice = |ids: [u32; 2]| with(&[call(ids[0]), call(ids[1])]);
    for (number, refused, fine) in [
        (1, vec![0; 28], sheet(&[], &[], FAR)),
        (1, vec![0; 32_772], of_length(32_764, 0)),
        (3, other_kind, case_1(&[])),
        (4, with(&[element(0, 3, [0, 0], &[1])]), with(&[call(0)])),
        (4, with(&[nested(9)]), with(&[nested(8)])),
        (5, twice([3, 3]), twice([3, 4])),
        (6, with(&[token(FAR[1])]), with(&[token(FAR[1] - 1)])),
        (9, of_length(32_768, 0), of_length(32_764, 0)),
    ] {
        assert_eq!(self::number(&refused), number);
        assert_eq!(self::number(&fine), 0, "beside {number}");
    }
}

/// The lowest of 1 to 6; 9 only where none of these holds.
#[test]
fn the_last_refusal_comes_behind_all_others() {
    let word = |mut sheet: Vec<u8>, before_end: usize, word: u32| {
        let at = sheet.len() - 4 * before_end;
        sheet[at..at + 4].copy_from_slice(&word.to_le_bytes());
        sheet
    };
    let whole = || of_length(32_768, 0);
    assert_eq!(number(&word(whole(), 7, 1)), 3);
    assert_eq!(number(&word(whole(), 9, 0)), 4);
    let record = rule(1, 1, &[alternative(0, &[call(0)])]);
    let ids: Vec<u32> = (0..8_184 - 2 * record.len() as u32).collect();
    assert_eq!(number(&sheet(&[record.clone(), record], &ids, FAR)), 5);
    assert_eq!(number(&of_length(32_768, FAR[1])), 6);
}

/// Without a call nothing grows, and lexer and combined units are converted too.
#[test]
fn all_else_is_copied() {
    let ids: Vec<u32> = (0..8_184).collect();
    let longest = sheet(&[], &ids, FAR);
    assert_eq!(convert(&longest), Ok(longest));
    for kind in 1..=3 {
        let of = |third: &[u32]| {
            let mut made = case_1(third);
            let trailer = made.len() - 32;
            made[trailer] = kind;
            made
        };
        assert_eq!(convert(&of(&[])), Ok(of(&[0])));
    }
}

/// What is left in buffers that are lent with junk.
#[test]
fn buffers_end_as_promised() {
    let ask = |old: &[u8], lengths: [usize; 2]| {
        let [mut result, mut work] = lengths.map(|length| vec![JUNK; length]);
        let mut numbers = [99; 2];
        lent::convert(old, &mut result, &mut work, &mut numbers);
        (numbers, result, work)
    };
    let all = |bytes: &[u8], byte: u8| bytes.iter().all(|own| *own == byte);
    const LEAST: [usize; 2] = [RESULT_BYTES, WORK_BYTES];
    for lengths in [LEAST, LEAST.map(|least| least + 9)] {
        let (numbers, result, work) = ask(&case_1(&[]), lengths);
        assert_eq!(numbers, [0, 288]);
        assert!(result[..288] == case_1(&[0]) && all(&result[288..], 0) && all(&work, 0));
        for (old, number, left) in [
            (vec![0; 28], 1, JUNK),
            (vec![0; 32], 3, 0),
            (case_1(&[0]), 4, 0),
            (of_length(32_768, 0), 9, 0),
        ] {
            let (numbers, result, work) = ask(&old, lengths);
            assert_eq!(numbers, [number, 0]);
            assert!(all(&result, left) && all(&work, left));
        }
    }
    let short = |lengths| {
        let (numbers, result, work) = ask(&sheet(&[], &[], FAR), lengths);
        assert!(all(&result, JUNK) && all(&work, JUNK));
        numbers
    };
    assert_eq!(short([RESULT_BYTES - 1, WORK_BYTES]), [2, 0]);
    assert_eq!(short([RESULT_BYTES, WORK_BYTES - 1]), [2, 0]);
    assert_eq!(short([0, 0]), [2, 0]);
    assert_eq!(ask(&[0; 28], [0, 0]).0, [1, 0]);
}
