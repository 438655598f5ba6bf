//! Holds a pass to the outcome with everything that it is lent between fences.

use crate::compare::{LEAST, Pass, left, promised};
use crate::fences::{Fenced, Side, tell};
use crate::outcome::{Judged, Outcome};

/// Sheets are longer only where they are refused for it.
const SHEET: usize = 65_536;
const MORE: usize = 4_096;
const NUMBERS: usize = 5 * size_of::<u32>();
const SIDES: [Side; 2] = [Side::Front, Side::Back];

/// What is lent again for each call.
pub struct Yard {
    sheet: Fenced,
    numbers: Fenced,
    /// With room for the least lengths exactly, so that both fences stand close; and with more.
    close: [Fenced; 3],
    wide: [Fenced; 3],
    before: [Vec<u8>; 3],
    pub calls: u64,
}

/// The lengths of the buffers, and at which fence everything stands.
#[derive(Clone, Copy, Debug)]
struct Call {
    lengths: [usize; 3],
    side: Side,
}

impl Default for Yard {
    fn default() -> Yard {
        Yard {
            sheet: Fenced::new(SHEET),
            numbers: Fenced::new(NUMBERS),
            close: LEAST.map(Fenced::new),
            wide: LEAST.map(|least| Fenced::new(least + MORE)),
            before: Default::default(),
            calls: 0,
        }
    }
}

impl Yard {
    /// Asks both entries about a sheet; `turn` goes through lengths.
    pub fn ask(
        &mut self,
        entries: [Pass; 2],
        name: &str,
        sheet: &[u8],
        judged: &Judged,
        turn: usize,
    ) -> Result<(), String> {
        for (reading, outcome) in judged.readings.iter().enumerate() {
            let entry = ["pass", "pass_textbook"][reading];
            for call in calls(turn + reading) {
                tell(format!("{name} ({entry}, {call:?})"));
                let answer = self.one(entries[reading], sheet, outcome, call);
                answer.map_err(|what| format!("{name}: {what} ({entry}, {call:?})"))?;
            }
        }
        Ok(())
    }

    fn one(
        &mut self,
        pass: Pass,
        sheet: &[u8],
        outcome: &Outcome,
        call: Call,
    ) -> Result<(), String> {
        self.calls += 1;
        let expected = promised(outcome, call.lengths);
        let sheet = lend_sheet(&mut self.sheet, sheet, call.side);
        let numbers = lend_numbers(&mut self.numbers, call.side);
        let close = call
            .lengths
            .iter()
            .zip(LEAST)
            .all(|(own, least)| *own <= least);
        let [result, trail, work] = if close {
            &mut self.close
        } else {
            &mut self.wide
        };
        let [first, second, third] = call.lengths;
        let mut lent = [
            result.lend(first, call.side),
            trail.lend(second, call.side),
            work.lend(third, call.side),
        ];
        for (lent, before) in lent.iter_mut().zip(&mut self.before) {
            spoil(lent);
            before.clear();
            before.extend_from_slice(lent);
        }
        pass(sheet, lent.each_mut().map(|own| &mut **own), numbers);
        if *numbers != expected.numbers {
            let wanted = expected.numbers;
            return Err(format!("numbers are {numbers:?}, and should be {wanted:?}"));
        }
        let before = self.before.each_ref().map(|own| &own[..]);
        left(&expected, lent.map(|own| &*own), before)
    }
}

/// A copy at the fence, which can only be read.
pub(crate) fn lend_sheet<'a>(area: &'a mut Fenced, sheet: &[u8], side: Side) -> &'a [u8] {
    if area.room() < sheet.len() {
        *area = Fenced::new(sheet.len());
    }
    area.writable(true);
    area.lend(sheet.len(), side).copy_from_slice(sheet);
    area.writable(false);
    area.lend(sheet.len(), side)
}

fn lend_numbers(area: &mut Fenced, side: Side) -> &mut [u32; 5] {
    let lent = area.lend(NUMBERS, side);
    lent.fill(0xa5);
    // SAFETY: 20 bytes at either end of a page, which is aligned.
    unsafe { &mut *lent.as_mut_ptr().cast() }
}

/// Junk, no byte of it 0.
pub(crate) fn spoil(area: &mut [u8]) {
    for (byte, at) in area.iter_mut().zip(0_usize..) {
        *byte = (at * 29 / 3) as u8 | 1;
    }
}

/// At both fences: the least lengths; and in turn longer ones, ones too short by a byte, and nothing at all.
fn calls(turn: usize) -> Vec<Call> {
    const ADDED: [usize; 3] = [1, 7, 4_095];
    let longer = LEAST.map(|least| least + ADDED[turn % 3]);
    let mut short = LEAST;
    short[turn / 2 % 3] -= [1, 1, 2, 4][turn / 6 % 4];
    let mut none = LEAST;
    none[turn / 2 % 3] = 0;
    let lengths = [LEAST, [longer, short, longer, none][turn % 4]];
    let both = |lengths| SIDES.map(|side| Call { lengths, side });
    lengths.into_iter().flat_map(both).collect()
}
