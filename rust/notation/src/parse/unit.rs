//! The parts of a unit: directives, and rules one after the other.

use super::Parser;
use crate::MOST_NAME;
use crate::fault::Fault;
use crate::names::is_token;
use crate::scan::{Token, What};
use crate::tree::{Counters, Rule, Sheet};
use crate::walk::least_counters;

const PARSER: u32 = 2;

/// A preserved rule by its id, or by its name's number and place, since all rules must be read first.
enum Preserved<'a> {
    Id(u32),
    Name(u32, Token<'a>),
}

/// What is known of a unit while it is read.
#[derive(Default)]
struct Unit<'a> {
    sheet: Sheet,
    preserved: Vec<Preserved<'a>>,
    counters: Option<Counters>,
    /// The words that begin the rules.
    heads: Vec<Token<'a>>,
}

impl<'a> Parser<'a> {
    /// Of a text that has faults the sheet means nothing.
    pub(super) fn sheet(&mut self) -> Sheet {
        let mut unit = Unit::default();
        unit.sheet.kind = PARSER;
        while self.ahead().what != What::End {
            if let Err(fault) = self.part(&mut unit) {
                self.tell(fault);
                self.skip_past(";");
            }
        }
        if self.faults.is_empty() {
            self.finish(&mut unit);
        }
        if unit.sheet.kind == PARSER {
            self.judge_heads(&unit.heads);
        }
        self.judge_labels(&unit.heads);
        unit.sheet
    }

    fn part(&mut self, unit: &mut Unit<'a>) -> Result<(), Fault> {
        if self.skip_foreign_part() {
            return Ok(());
        }
        match self.ahead().what {
            What::Name(_) | What::Numbered(..) => {
                unit.heads.push(self.ahead());
                self.rule(&mut unit.sheet.rules)?;
            }
            What::Directive("%kind") => unit.sheet.kind = self.unit_kind()?,
            What::Directive("%names") => self.names()?,
            What::Directive("%preserve") => self.preserved(&mut unit.preserved)?,
            What::Directive("%counters") => unit.counters = Some(self.counters()?),
            _ => return Err(self.fault("a rule, `%kind`, `%names`, `%preserve` or `%counters`")),
        }
        Ok(())
    }

    /// What rests on all rules.
    fn finish(&mut self, unit: &mut Unit<'a>) {
        let sheet = &mut unit.sheet;
        for entry in &unit.preserved {
            match id_of(entry, &sheet.rules) {
                Ok(id) => sheet.preserved.push(id),
                Err(fault) => self.tell(fault),
            }
        }
        sheet.preserved.sort_unstable();
        sheet.preserved.dedup();
        sheet.counters = unit.counters.unwrap_or_else(|| least_counters(sheet));
    }

    /// In a parser unit a rule with a token's name could never be called.
    fn judge_heads(&mut self, heads: &[Token<'a>]) {
        for token in heads {
            if matches!(token.what, What::Name(text) if is_token(text)) {
                let advice =
                    "what begins with a capital is a token, so that no call could mean this rule";
                self.tell(token.advised("a rule's name that begins with a small letter", advice));
            }
        }
    }

    fn unit_kind(&mut self) -> Result<u32, Fault> {
        self.skip();
        let kind = match self.ahead().what {
            What::Name("lexer") => 1,
            What::Name("parser") => PARSER,
            What::Name("combined") => 3,
            _ => return Err(self.fault("`lexer`, `parser` or `combined`")),
        };
        self.skip();
        self.expect(";")?;
        Ok(kind)
    }

    pub(crate) fn names(&mut self) -> Result<(), Fault> {
        self.skip();
        while !self.take(";") {
            let (token, text) = (self.ahead(), self.name("a name or `;`")?);
            self.expect("=")?;
            let place = self.ahead();
            let number = self.number()?;
            if !(1..=MOST_NAME).contains(&number) {
                return Err(place.fault("a number from 1 to 4294967295"));
            }
            if self.names.set(text, number).is_none() {
                return Err(token.fault("a name and a number that are not in use yet"));
            }
        }
        Ok(())
    }

    fn preserved(&mut self, list: &mut Vec<Preserved<'a>>) -> Result<(), Fault> {
        self.skip();
        while !self.take(";") {
            let token = self.ahead();
            if let What::Number(id) = token.what {
                self.skip();
                list.push(Preserved::Id(id));
                continue;
            }
            let name = self.named("a rule's name, a rule id or `;`")?;
            list.push(Preserved::Name(name, token));
        }
        Ok(())
    }

    fn counters(&mut self) -> Result<Counters, Fault> {
        self.counters = Some((self.ahead().line, self.ahead().column));
        self.skip();
        let counters = Counters {
            alternative: self.number()?,
            element: self.number()?,
            label: self.number()?,
            action: self.number()?,
            predicate: self.number()?,
        };
        self.expect(";")?;
        Ok(counters)
    }
}

fn id_of(entry: &Preserved, rules: &[Rule]) -> Result<u32, Fault> {
    match entry {
        Preserved::Id(id) => Ok(*id),
        Preserved::Name(name, token) => {
            let rule = rules.iter().find(|rule| rule.name == *name);
            rule.map(|rule| rule.id)
                .ok_or_else(|| token.fault("the name of a rule"))
        }
    }
}
