//! The notation for grammars, read into a sheet.
//!
//! `e: a? DOTS | x=INT {$INT}; a: e PLUS;` and, where wanted, every word of a
//! sheet: ids `@7` (of an element `^7`, in front of it), carried numbers `~7`,
//! arguments `a[5]`, the precedence of a call `a^3` or `a[5]?^3`, with no gap in
//! front of it, options `<o=1>` in front of an alternative or behind an element,
//! a labelled alternative `#`, rule flags `!2`, predicates `&{..}`, own ids
//! `{@3 $x}`, epsilon `_`, kind 5 `.`, the end of input `EOF`, which is no token,
//! no alternatives at all `-`; `%kind lexer;`, `%preserve a 9;`, `%counters 13 25
//! 0 0 0;`. References: `$x`, `$x.a`, `$x::a`.
//!
//! An id left out is one more than the last of its sort; alternatives start at
//! 10, elements at 20, rules at 1, the others at 0. A counter left out is one
//! more than the highest id of its sort, or 0 where there is none.

mod element;

use crate::names::Names;
use crate::scan::{Token, scan};
use crate::tree::{Alternative, Counters, Rule, Sheet};
use crate::walk::{self, Sort};

/// The ids that come next, by sort; the notation's numbering starts here.
pub(crate) const FIRST_IDS: [u32; 7] = [0, 1, 10, 20, 0, 0, 0];

pub fn parse(text: &str) -> Result<(Sheet, Names), String> {
    let tokens = scan(text)?;
    let written = tokens.iter().filter_map(|token| match token {
        Token::Name(name) => Some(name.as_str()),
        _ => None,
    });
    let names = Names::reserving(written);
    let mut parser = Parser {
        tokens: &tokens,
        names,
        next: FIRST_IDS,
    };
    let sheet = parser.sheet()?;
    Ok((sheet, parser.names))
}

/// For grammars that stand in the program text.
pub fn sheet(text: &str) -> Sheet {
    parse(text)
        .unwrap_or_else(|fault| panic!("{fault} in {text}"))
        .0
}

struct Parser<'a> {
    tokens: &'a [Token],
    names: Names,
    next: [u32; 7],
}

/// A preserved rule by its name, known only once all rules are read.
enum Preserved {
    Id(u32),
    Name(u32),
}

impl Parser<'_> {
    fn sheet(&mut self) -> Result<Sheet, String> {
        let mut sheet = Sheet {
            kind: 2,
            ..Sheet::default()
        };
        let mut preserved = Vec::new();
        let mut counters = None;
        while let Some(Token::Name(name)) = self.tokens.first() {
            match name.as_str() {
                "%kind" => sheet.kind = self.unit_kind()?,
                "%preserve" => preserved.extend(self.preserved()?),
                "%counters" => counters = Some(self.counters()?),
                _ => sheet.rules.push(self.rule()?),
            }
        }
        if !self.tokens.is_empty() {
            return Err(self.fault("a rule"));
        }
        for entry in preserved {
            sheet.preserved.push(id_of(entry, &sheet.rules)?);
        }
        sheet.preserved.sort_unstable();
        sheet.counters = counters.unwrap_or_else(|| least_counters(&sheet));
        Ok(sheet)
    }

    fn unit_kind(&mut self) -> Result<u32, String> {
        self.skip();
        let kind = match self.name()?.as_str() {
            "lexer" => 1,
            "parser" => 2,
            "combined" => 3,
            other => return Err(format!("unknown unit kind {other}")),
        };
        self.expect(";")?;
        Ok(kind)
    }

    fn preserved(&mut self) -> Result<Vec<Preserved>, String> {
        self.skip();
        let mut list = Vec::new();
        while !self.take(";") {
            if let Some(id) = self.number_ahead() {
                list.push(Preserved::Id(id));
                continue;
            }
            let text = self.name()?;
            list.push(Preserved::Name(self.names.number(&text)));
        }
        Ok(list)
    }

    fn counters(&mut self) -> Result<Counters, String> {
        self.skip();
        let counters = Counters {
            alternative: self.number()?,
            element: self.number()?,
            label: self.number()?,
            action: self.number()?,
            predicate: self.number()?,
        };
        self.expect(";")?;
        Ok(counters)
    }

    fn rule(&mut self) -> Result<Rule, String> {
        let text = self.name()?;
        let name = self.names.number(&text);
        let id = self.id(Sort::Rule)?;
        let flags = if self.take("!") { self.number()? } else { 0 };
        self.expect(":")?;
        let alternatives = self.alternatives()?;
        self.expect(";")?;
        Ok(Rule {
            id,
            name,
            flags,
            alternatives,
        })
    }

    fn alternatives(&mut self) -> Result<Vec<Alternative>, String> {
        if self.take("-") {
            return Ok(Vec::new());
        }
        let mut list = vec![self.alternative()?];
        while self.take("|") {
            list.push(self.alternative()?);
        }
        Ok(list)
    }

    fn alternative(&mut self) -> Result<Alternative, String> {
        let id = self.id(Sort::Alternative)?;
        let carried = self.carried()?;
        let labelled = self.take("#");
        let options = self.options()?;
        let mut elements = Vec::new();
        while !["|", ";", ")"].iter().any(|end| self.ahead(end)) {
            elements.push(self.element()?);
        }
        Ok(Alternative {
            id,
            carried,
            labelled,
            options,
            elements,
        })
    }

    fn id(&mut self, sort: Sort) -> Result<u32, String> {
        self.id_after("@", sort)
    }

    fn id_after(&mut self, mark: &str, sort: Sort) -> Result<u32, String> {
        let id = if self.take(mark) {
            self.number()?
        } else {
            self.next[sort as usize]
        };
        self.next[sort as usize] = id.wrapping_add(1);
        Ok(id)
    }

    fn carried(&mut self) -> Result<u32, String> {
        if self.take("~") { self.number() } else { Ok(0) }
    }

    fn ahead(&self, mark: &str) -> bool {
        matches!(self.tokens.first(), Some(Token::Mark(found)) if *found == mark)
    }

    fn take(&mut self, mark: &str) -> bool {
        let found = self.ahead(mark);
        if found {
            self.skip();
        }
        found
    }

    fn skip(&mut self) {
        self.tokens = &self.tokens[1..];
    }

    fn expect(&mut self, mark: &str) -> Result<(), String> {
        if self.take(mark) {
            Ok(())
        } else {
            Err(self.fault(mark))
        }
    }

    fn number_ahead(&mut self) -> Option<u32> {
        let Some(Token::Number(number)) = self.tokens.first() else {
            return None;
        };
        let number = *number;
        self.skip();
        Some(number)
    }

    fn number(&mut self) -> Result<u32, String> {
        self.number_ahead().ok_or_else(|| self.fault("a number"))
    }

    fn name(&mut self) -> Result<String, String> {
        let Some(Token::Name(name)) = self.tokens.first() else {
            return Err(self.fault("a name"));
        };
        let name = name.clone();
        self.skip();
        Ok(name)
    }

    fn fault(&self, wanted: &str) -> String {
        let ahead = &self.tokens[..self.tokens.len().min(4)];
        format!("wanted {wanted}, found {ahead:?}")
    }
}

fn id_of(entry: Preserved, rules: &[Rule]) -> Result<u32, String> {
    match entry {
        Preserved::Id(id) => Ok(id),
        Preserved::Name(name) => {
            let rule = rules.iter().find(|rule| rule.name == name);
            rule.map(|rule| rule.id)
                .ok_or_else(|| "a preserved name is no rule's".to_owned())
        }
    }
}

/// One above the highest id of each sort, 0 where there is none.
pub fn least_counters(sheet: &Sheet) -> Counters {
    let ids = walk::ids(sheet);
    let above = |sort| {
        let own = ids.iter().filter(|(found, _)| *found == sort);
        own.map(|(_, id)| id.saturating_add(1)).max().unwrap_or(0)
    };
    Counters {
        alternative: above(Sort::Alternative),
        element: above(Sort::Element),
        label: above(Sort::Label),
        action: above(Sort::Action),
        predicate: above(Sort::Predicate),
    }
}
