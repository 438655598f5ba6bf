//! What comes of a grammar: before and after, and how they hang together.

use std::collections::BTreeMap;

use mutual_recursion::{CycleLeft, Joined, Reading, cycles};
use notation::{Grammar, Place, Printer, Sheet, Sort, Spot, Style, Table, Text};

use crate::input::Input;
use crate::levels::{self, Remark};
use crate::options::Options;
use crate::origins;
use crate::stop::{Status, Stop};

pub struct Answer {
    /// The file that was handed in: its name, whether it is a text, and its bytes.
    pub name: String,
    pub is_text: bool,
    pub file: Vec<u8>,
    /// The table of names, as a file has it: of a text the one that `--names` writes, of a sheet the one handed in.
    pub table: Option<Vec<u8>>,
    pub before: Grammar,
    pub after: Grammar,
    pub joined: Joined,
    /// The cycles of the result.
    pub left: Vec<CycleLeft>,
    pub reading: Reading,
    pub options: Vec<&'static str>,
    /// Of a text, where it says what, and what may be meant otherwise.
    pub text: Option<Text>,
    /// The rules that were joined, by id.
    pub hubs: Vec<u32>,
    pub slots: BTreeMap<u32, u32>,
    pub origins: BTreeMap<u32, u32>,
    /// The alternatives handed in, by id: as a text tells them.
    pub told: BTreeMap<u32, String>,
}

impl Answer {
    /// Of a sheet that was not refused.
    pub fn of(input: Input, joined: Joined, options: &Options) -> Answer {
        let tree = |bytes| Sheet::of_bytes(bytes).expect("a sheet that was not refused");
        let before = Grammar {
            sheet: tree(&input.bytes),
            names: input.names,
            attributes: input.attributes,
        };
        let mut after = Grammar {
            sheet: tree(&joined.sheet),
            ..before.clone()
        };
        origins::hand_on(&mut after.attributes, &joined.trail);
        let own_table = input.is_text.then(|| table(&input.bytes, &joined, &after));
        let reading = options.reading;
        Answer {
            name: input.name,
            is_text: input.is_text,
            file: input.file,
            table: own_table.or(input.table),
            hubs: origins::joined(&joined.trail),
            slots: origins::slots(&before.sheet, &after.sheet, reading),
            origins: origins::origins(&joined.trail),
            told: told(&before),
            left: cycles(&joined.sheet, reading).expect("a result is not refused"),
            options: options.words(),
            text: input.text,
            before,
            after,
            joined,
            reading,
        }
    }

    /// Where a node of the result stands in the text, or what it was copied from.
    pub fn spot(&self, sort: Sort, id: u32) -> Option<Spot> {
        let text = self.text.as_ref()?;
        let mut id = id;
        loop {
            if let Some(spot) = text.spot(sort, id) {
                return Some(spot);
            }
            let number = sort as u32;
            let mut trail = self.joined.trail.iter();
            let made = trail.find(|entry| (entry.kind.number(), entry.id) == (number, id));
            id = made.filter(|entry| entry.owner != id)?.owner;
        }
    }

    /// What the text may mean otherwise, and where phrases may group otherwise than the slots suggest.
    pub fn remarks(&self) -> Vec<Remark> {
        let text = self.text.iter().flat_map(|text| &text.warnings);
        let of_text = text.map(|own| Remark {
            text: own.to_string(),
            is_warning: true,
            about: Vec::new(),
        });
        of_text.chain(levels::remarks(self)).collect()
    }

    /// Of an alternative handed in, as its rule and its number there.
    pub fn tell(&self, id: u32) -> &str {
        self.told.get(&id).map_or("?", String::as_str)
    }

    /// Of an alternative of the result: the one that it is, or the one whose place it fills.
    pub fn tell_after(&self, id: u32) -> &str {
        self.tell(self.slots.get(&id).copied().unwrap_or(id))
    }

    /// What `--strict` asks for.
    pub fn none_left(&self) -> Result<(), Stop> {
        let told = match self.left.len() {
            0 => return Ok(()),
            1 => "1 cycle is left".to_owned(),
            more => format!("{more} cycles are left"),
        };
        Err(Stop {
            status: Status::Left,
            text: format!(
                "{told}, and --strict is asked for; the head of what is printed says why"
            ),
        })
    }
}

/// It belongs to both sheets: what is copied has ids that no other node has.
fn table(sheet: &[u8], joined: &Joined, after: &Grammar) -> Vec<u8> {
    let mut sheets = vec![sha256::hex(sheet), sha256::hex(&joined.sheet)];
    sheets.dedup();
    let table = Table {
        sheets,
        names: after.names.clone(),
        attributes: after.attributes.clone(),
    };
    table.text().into_bytes()
}

/// The alternatives of each rule as its name and their number, from 1 on.
fn told(grammar: &Grammar) -> BTreeMap<u32, String> {
    let printer = Printer::of(grammar, Style::Plain);
    let mut told = BTreeMap::new();
    for rule in &grammar.sheet.rules {
        let name = printer.name(rule.name, Place::Rule);
        for (place, own) in (1..).zip(&rule.alternatives) {
            told.insert(own.id, format!("{name} {place}"));
        }
    }
    told
}
