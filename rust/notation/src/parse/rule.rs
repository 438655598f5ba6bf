//! Rules and their alternatives.

use super::Parser;
use crate::MOST_RULES;
use crate::fault::Fault;
use crate::tree::{Alternative, Rule};
use crate::walk::Sort;

impl Parser<'_> {
    pub(super) fn rule(&mut self, rules: &mut Vec<Rule>) -> Result<(), Fault> {
        let token = self.ahead();
        if rules.len() == MOST_RULES {
            return Err(token.fault("at most 128 rules"));
        }
        let name = self.named("a rule's name")?;
        if rules.iter().any(|rule| rule.name == name) {
            self.tell(token.fault("a name that no rule has yet"));
        }
        self.skip_foreign_head();
        let id = self.id("@", Sort::Rule, token)?;
        let flags = self.flags()?;
        self.skip_foreign_head();
        self.expect(":")?;
        let alternatives = self.alternatives(0)?;
        self.expect(";")?;
        rules.push(Rule {
            id,
            name,
            flags,
            alternatives,
        });
        Ok(())
    }

    fn flags(&mut self) -> Result<u32, Fault> {
        if !self.take("!") {
            return Ok(0);
        }
        let place = self.ahead();
        match self.number()? {
            flags @ 0..=3 => Ok(flags),
            _ => Err(place.fault("rule flags from 0 to 3")),
        }
    }

    /// Up to the mark that ends them: of a rule's own it is `;`, in a block `)`.
    pub(super) fn alternatives(&mut self, depth: usize) -> Result<Vec<Alternative>, Fault> {
        if self.is_ahead("-") && !self.is_arrow_ahead() {
            self.skip();
            return Ok(Vec::new());
        }
        let mut list = vec![self.alternative(depth)?];
        while self.take("|") {
            list.push(self.alternative(depth)?);
        }
        Ok(list)
    }

    fn alternative(&mut self, depth: usize) -> Result<Alternative, Fault> {
        let id = self.id("@", Sort::Alternative, self.ahead())?;
        let carried = self.carried()?;
        let labelled = self.take("#");
        if labelled && !self.take(":") {
            self.keep_behind_label();
        }
        let options = self.options()?;
        let end = if depth == 0 { ";" } else { ")" };
        let mut elements = Vec::new();
        while !self.is_ahead("|") && !self.is_ahead(end) {
            if self.skip_foreign_tail() {
                continue;
            }
            if !self.element_ahead() {
                return Err(self.fault(&format!("an element, `|` or `{end}`")));
            }
            elements.push(self.element(depth)?);
        }
        Ok(Alternative {
            id,
            carried,
            labelled,
            options,
            elements,
        })
    }

    pub(super) fn carried(&mut self) -> Result<u32, Fault> {
        if !self.is_ahead("~") || self.skip_complement() {
            return Ok(0);
        }
        self.skip();
        self.number()
    }
}
