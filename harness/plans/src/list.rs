//! The planned list as it stands in a work area, in halves of 16 bits.

use sheets::tree::OptionDecl;
use traced::Planned;

use crate::places::Places;

/// The first half of the heads, and of the options; elements stand from the start on.
const HEADS: usize = 8_192;
const OPTIONS: usize = 12_288;
/// Halves of a head: slot, origin, number of elements, number of options.
const HEAD: usize = 4;
/// On the place of an element that was made plain, and on the slot of an untouched alternative.
const MARK: usize = 32_768;

/// All but the options by place; an option is told by name and value.
#[derive(Clone, Debug, Default, PartialEq, Eq)]
pub struct List {
    pub heads: Vec<[usize; HEAD]>,
    pub elements: Vec<usize>,
    pub options: Vec<OptionDecl>,
}

impl List {
    /// The list of a plan.
    pub fn of(alternatives: &[Planned], places: &Places) -> List {
        let mut list = List::default();
        let marked = |mark: bool, place: usize| if mark { place + MARK } else { place };
        for own in alternatives {
            let slot = places.alternatives[&own.label_from];
            let origin = places.alternatives[&own.origin];
            let (elements, options) = (own.elements.len(), own.options.len());
            list.heads
                .push([marked(own.verbatim, slot), origin, elements, options]);
            list.elements.extend(own.elements.iter().map(|(id, now)| {
                let (place, before) = places.elements[id];
                marked(*now != before, place)
            }));
            list.options.extend(&own.options);
        }
        list
    }

    /// Writes it as the proved code does, the options by the places that `option` gives.
    pub fn write(&self, work: &mut [u8], option: impl Fn(OptionDecl) -> usize) {
        let heads = self.heads.iter().flatten();
        heads
            .zip(HEADS..)
            .for_each(|(word, at)| put(work, at, *word));
        for (at, place) in self.elements.iter().enumerate() {
            put(work, at, *place);
        }
        for (own, at) in self.options.iter().zip(OPTIONS..) {
            put(work, at, option(*own));
        }
    }

    /// Whether it stands in the work area, or what stands there instead.
    pub fn stands(&self, work: &[u8], words: &[u32], places: &Places) -> Result<(), String> {
        for (own, head) in self.heads.iter().enumerate() {
            for (part, want) in head.iter().enumerate() {
                let name = ["slot", "origin", "elements", "options"][part];
                let got = half(work, HEADS + HEAD * own + part);
                same(&format!("{name} of alternative {own}"), got, *want)?;
            }
        }
        for (at, want) in self.elements.iter().enumerate() {
            same(&format!("element {at}"), half(work, at), *want)?;
        }
        for (at, want) in self.options.iter().enumerate() {
            let place = half(work, OPTIONS + at);
            if !places.options.contains(&place) {
                return Err(format!("option {at} is at {place}, where no option stands"));
            }
            let got = (words[place], words[place + 1]);
            if got != (want.name, want.value) {
                return Err(format!("option {at} is {got:?}, and should be {want:?}"));
            }
        }
        Ok(())
    }
}

fn same(what: &str, got: usize, want: usize) -> Result<(), String> {
    match got == want {
        true => Ok(()),
        false => Err(format!("{what} is {got}, and should be {want}")),
    }
}

fn half(work: &[u8], at: usize) -> usize {
    usize::from(u16::from_le_bytes([work[2 * at], work[2 * at + 1]]))
}

fn put(work: &mut [u8], at: usize, half: usize) {
    work[2 * at..2 * at + 2].copy_from_slice(&(half as u16).to_le_bytes());
}
