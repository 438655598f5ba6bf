//! Sheets from a seed. A profile is what its sheets hit on purpose.

mod binding;
mod damage;
mod draft;
mod ends;
mod far;
mod fold;
mod limits;
mod number;
mod precedences;
mod skeleton;
mod twist;
mod wild;

use crate::codec::{bytes_of, encode};
use crate::rng::Rng;
use crate::tree::Sheet;
use number::number;
use skeleton::{Draft, add_cycle};
use twist::Twist;

pub use fold::fold_symbols;
pub use precedences::give_precedences;

enum Make {
    /// A cycle that can be joined, with this twist once or twice and seldom others.
    Cycle(Twist),
    /// A whole sheet of its own making.
    Sheet(fn(&mut Rng) -> Sheet),
}

pub struct Profile {
    pub name: &'static str,
    /// Whether its sheets are about refusals 7 to 9, about large names, splices and lists, of which some are large, or about
    /// precedences.
    pub about_limits: bool,
    /// Whether its sheets have the end of input.
    pub has_ends: bool,
    make: Make,
}

const fn cycle(name: &'static str, twist: Twist) -> Profile {
    Profile {
        name,
        about_limits: false,
        has_ends: false,
        make: Make::Cycle(twist),
    }
}

const fn end(name: &'static str, make: Make) -> Profile {
    Profile {
        name,
        about_limits: false,
        has_ends: true,
        make,
    }
}

const fn whole(name: &'static str, make: fn(&mut Rng) -> Sheet) -> Profile {
    Profile {
        name,
        about_limits: false,
        has_ends: false,
        make: Make::Sheet(make),
    }
}

const fn limit(name: &'static str, make: fn(&mut Rng) -> Sheet) -> Profile {
    Profile {
        name,
        about_limits: true,
        has_ends: false,
        make: Make::Sheet(make),
    }
}

pub const PROFILES: [Profile; 43] = [
    cycle("plain", |_, _| {}),
    cycle("several", twist::several),
    cycle("nullable-front", twist::nullable_front),
    cycle("nullable-behind", twist::nullable_behind),
    cycle("nullable-hub", twist::nullable_hub),
    cycle("optional-member", twist::optional_member),
    cycle("blocks", twist::blocks),
    cycle("labels", twist::labels),
    cycle("references", binding::references),
    cycle("captured", binding::captured),
    cycle("dangling", binding::dangling),
    cycle("satellite-semantics", binding::satellite_semantics),
    cycle("options", twist::options),
    cycle("preserved", twist::preserved),
    cycle("tail-satellite", twist::tail_satellite),
    cycle("flags", twist::flags),
    cycle("hub-arguments", twist::hub_arguments),
    cycle("unknown", twist::unknown),
    cycle("optional-symbol", twist::optional_symbol),
    cycle("arguments", twist::arguments),
    cycle("satellite-loop", twist::satellite_loop),
    cycle("no-base", twist::no_base),
    cycle("outside", twist::outside),
    cycle("outside-base", twist::outside_base),
    cycle("hollow", twist::hollow),
    cycle("long-chain", twist::long_chain),
    whole("tiny", |rng| number(wild::tiny(rng), rng)),
    whole("wild", |rng| number(wild::wild(rng), rng)),
    limit("near-7", limits::near_seven),
    limit("near-8", limits::near_eight),
    limit("near-9", limits::near_nine),
    limit("just-9", limits::just_nine),
    limit("far-names", far::far_names),
    limit("wide-names", far::wide_names),
    limit("long-splice", far::long_splice),
    limit("long-list", far::long_list),
    limit("precedences", with_precedences),
    end("end-front", Make::Cycle(ends::front)),
    end("end-alone", Make::Cycle(ends::alone)),
    end("end-tail", Make::Cycle(ends::tail)),
    end("end-block", Make::Cycle(ends::in_block)),
    end("end-satellite", Make::Cycle(ends::satellite)),
    end("end-anywhere", Make::Sheet(end_anywhere)),
];

fn end_anywhere(rng: &mut Rng) -> Sheet {
    let mut draft = match rng.one_in(2) {
        true => wild::tiny(rng),
        false => wild::wild(rng),
    };
    ends::anywhere(&mut draft, rng);
    number(draft, rng)
}

/// The name of faulty bytes, which are no profile: they are no sheets.
pub const DAMAGED: &str = "damaged";

/// The twists that a profile may add to its own.
const EXTRA: [Twist; 12] = [
    twist::nullable_front,
    twist::nullable_behind,
    twist::nullable_hub,
    twist::optional_member,
    twist::blocks,
    twist::labels,
    binding::references,
    twist::options,
    twist::preserved,
    twist::tail_satellite,
    twist::outside,
    twist::hollow,
];

pub fn profile(name: &str) -> Option<&'static Profile> {
    PROFILES.iter().find(|profile| profile.name == name)
}

/// The names that `bytes` takes.
pub fn names() -> impl Iterator<Item = &'static str> {
    PROFILES.iter().map(|profile| profile.name).chain([DAMAGED])
}

pub fn bytes(name: &str, seed: u64) -> Option<Vec<u8>> {
    if name == DAMAGED {
        return Some(damaged(seed));
    }
    let sheet = profile(name)?.sheet(seed);
    Some(bytes_of(&encode(&sheet)))
}

/// A sheet of some profile with one fault. The end of input has faults enough in sheets of the reader's own generator.
pub fn damaged(seed: u64) -> Vec<u8> {
    let mut rng = Rng::new(stream(DAMAGED), seed);
    let small: Vec<_> = PROFILES
        .iter()
        .filter(|profile| !profile.about_limits && !profile.has_ends)
        .collect();
    let sheet = rng.pick(&small).sheet(seed);
    damage::damage(&sheet, &mut rng)
}

impl Profile {
    pub fn sheet(&self, seed: u64) -> Sheet {
        let mut rng = Rng::new(stream(self.name), seed);
        match self.make {
            Make::Cycle(twist) => twisted(twist, &mut rng),
            Make::Sheet(make) => make(&mut rng),
        }
    }
}

fn twisted(twist: Twist, rng: &mut Rng) -> Sheet {
    let mut draft = Draft::new();
    add_cycle(&mut draft, *rng.pick(&[2, 2, 2, 2, 3, 3, 4, 5, 6]), rng);
    for _ in 0..rng.between(1, 2) {
        twist(&mut draft, rng);
    }
    while rng.one_in(4) {
        rng.pick(&EXTRA)(&mut draft, rng);
    }
    let mut sheet = number(draft, rng);
    if rng.one_in(40) {
        sheet.kind = if rng.one_in(2) { 1 } else { 3 };
    }
    sheet
}

/// A cycle with any twists, and precedences for its calls. All other profiles have none.
fn with_precedences(rng: &mut Rng) -> Sheet {
    let mut sheet = twisted(*rng.pick(&EXTRA), rng);
    give_precedences(&mut sheet, rng);
    sheet
}

fn stream(name: &str) -> u64 {
    name.bytes().fold(7, |sum, byte| {
        sum.wrapping_mul(131).wrapping_add(u64::from(byte))
    })
}
