//! Outcomes for which the original is asked about blocks in place of elements (`oracle::folded`).

use oracle::folded::{Folding, Ran, Reading};
use sheets::tree::Sheet;

use crate::outcome::Outcome;

/// The outcome by the textbook's reading, if the sheet has a symbol that may be absent.
pub fn outcome(sheet: &Sheet) -> Option<Outcome> {
    let folding = Folding::of(sheet, Reading::Textbook);
    folding.symbols.then(|| mapped(folding, sheet))
}

/// The same where it has none, too: the original's outcome by way of ids counted anew.
pub fn outcome_of_any(sheet: &Sheet) -> Outcome {
    mapped(Folding::of(sheet, Reading::Textbook), sheet)
}

/// The outcome by the original's own reading, of a sheet in which end of input stands.
pub fn outcome_with_ends(sheet: &Sheet) -> Outcome {
    mapped(Folding::of(sheet, Reading::Original), sheet)
}

fn mapped(folding: Folding, sheet: &Sheet) -> Outcome {
    match folding.run(sheet) {
        Ok(Ran {
            stages,
            result,
            trail,
            ..
        }) => Outcome::accepted(&stages, &result, &trail),
        Err(number) => Outcome::refused(number),
    }
}
