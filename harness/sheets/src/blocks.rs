//! Elements put in blocks of their own, by which the original is asked about what it does not know (`oracle::folded` says why).

use crate::tree::{Alternative, Element, Kind, Sheet, quantifier};
use crate::walk;

/// Whether an element of kind 7 stands in the sheet.
pub fn has_end_of_input(sheet: &Sheet) -> bool {
    let mut elements = sheet.rules.iter().flat_map(walk::elements);
    elements.any(Element::is_end_of_input)
}

/// The sheet with each element of kind 7 as a block of quantifier 1 around one of kind 5. The block has its id; the
/// alternative in it has id 0 and the element within the same one, so that no pass is to be made over it.
pub fn ends_in_blocks(sheet: &Sheet) -> Sheet {
    in_blocks(sheet, Element::is_end_of_input)
}

/// The same with the elements that `wanted` picks. Of those that are not of kind 7 the quantifier moves to the block.
pub fn in_blocks(sheet: &Sheet, wanted: impl Fn(&Element) -> bool) -> Sheet {
    let mut made = sheet.clone();
    for rule in &mut made.rules {
        put_in_blocks(&mut rule.alternatives, &wanted);
    }
    made
}

fn put_in_blocks(list: &mut [Alternative], wanted: &impl Fn(&Element) -> bool) {
    for element in list.iter_mut().flat_map(|own| &mut own.elements) {
        if let Kind::Block(inner) = &mut element.kind {
            put_in_blocks(inner, wanted);
        } else if wanted(element) {
            let own = Alternative::default();
            *element = block_around(element, element.id, own);
        }
    }
}

/// The block in place of an element, with its id; in it `own`, which has the element as one of this id.
pub fn block_around(element: &Element, id: u32, own: Alternative) -> Element {
    let mut within = Element {
        id,
        ..element.clone()
    };
    let quantifier = match element.kind {
        Kind::EndOfInput => {
            within.kind = Kind::Other;
            quantifier::OPTIONAL
        }
        _ => std::mem::replace(&mut within.quantifier, quantifier::ONE),
    };
    let own = Alternative {
        elements: vec![within],
        ..own
    };
    Element {
        id: element.id,
        quantifier,
        ..Element::new(Kind::Block(vec![own]))
    }
}
