//! The five counters of the original's id allocator.
//!
//! Its fields are private to the unchanged file, and handing out ids one by one
//! up to a counter near its end would take four thousand million calls. The
//! allocator is ten `u32` and nothing else, so it is written as ten words; which
//! word is whose is found by handing out one id of each sort.

use crate::grammar::model::ModelIdAllocator;
use sheets::tree::Counters;

const FIELDS: usize = 10;

fn words(ids: ModelIdAllocator) -> [u32; FIELDS] {
    // SAFETY: sizes are compared by the compiler; ten `u32` leave no padding.
    unsafe { std::mem::transmute(ids) }
}

fn allocator(words: [u32; FIELDS]) -> ModelIdAllocator {
    // SAFETY: as above, and every word is a `u32`.
    unsafe { std::mem::transmute(words) }
}

/// The words of the five counters, in the trailer's order.
fn places() -> [usize; 5] {
    let moved = |hand_out: fn(&mut ModelIdAllocator)| {
        let mut ids = ModelIdAllocator::default();
        hand_out(&mut ids);
        let place = words(ids).iter().position(|word| *word == 1);
        place.expect("one counter has moved")
    };
    [
        moved(|ids| _ = ids.alternative()),
        moved(|ids| _ = ids.element()),
        moved(|ids| _ = ids.label()),
        moved(|ids| _ = ids.action()),
        moved(|ids| _ = ids.predicate()),
    ]
}

pub(crate) fn set(counters: &Counters) -> ModelIdAllocator {
    let values = [
        counters.alternative,
        counters.element,
        counters.label,
        counters.action,
        counters.predicate,
    ];
    let mut all = words(ModelIdAllocator::default());
    for (place, value) in places().into_iter().zip(values) {
        all[place] = value;
    }
    allocator(all)
}

pub(crate) fn read(ids: &ModelIdAllocator) -> Counters {
    let all = words(ids.clone());
    let [alternative, element, label, action, predicate] = places().map(|place| all[place]);
    Counters {
        alternative,
        element,
        label,
        action,
        predicate,
    }
}
