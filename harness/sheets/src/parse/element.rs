//! Elements of the notation.

use super::Parser;
use crate::names::{END_OF_INPUT, is_token};
use crate::scan::Token;
use crate::tree::{Element, Kind, Label, OptionDecl, Reference, Semantics};
use crate::walk::Sort;

impl Parser<'_> {
    /// Ids are handed out as the pass does: the element, its label, what it holds.
    pub(super) fn element(&mut self) -> Result<Element, String> {
        let id = self.id_after("^", Sort::Element)?;
        let label = self.label()?;
        let mut kind = self.atom()?;
        let quantifier = self.quantifier();
        if let Kind::Call { precedence, .. } = &mut kind {
            *precedence = self.precedence()?;
        }
        let options = self.options()?;
        let carried = self.carried()?;
        Ok(Element {
            id,
            carried,
            quantifier,
            label,
            options,
            kind,
        })
    }

    fn label(&mut self) -> Result<Option<Label>, String> {
        let written = matches!(
            self.tokens,
            [Token::Name(_), Token::Mark("="), ..]
                | [
                    Token::Name(_),
                    Token::Mark("@"),
                    Token::Number(_),
                    Token::Mark("="),
                    ..
                ]
        );
        if !written {
            return Ok(None);
        }
        let text = self.name()?;
        let name = self.names.number(&text);
        let id = self.id(Sort::Label)?;
        self.expect("=")?;
        Ok(Some(Label { id, name }))
    }

    fn atom(&mut self) -> Result<Kind, String> {
        if self.take("(") {
            let alternatives = self.alternatives()?;
            self.expect(")")?;
            return Ok(Kind::Block(alternatives));
        }
        if self.take(".") {
            return Ok(Kind::Other);
        }
        if self.take("&") {
            return Ok(Kind::Predicate(self.semantics(Sort::Predicate)?));
        }
        if self.ahead("{") {
            return Ok(Kind::Action(self.semantics(Sort::Action)?));
        }
        let text = self.name()?;
        if text == "_" {
            return Ok(Kind::Epsilon);
        }
        if text == END_OF_INPUT {
            return Ok(Kind::EndOfInput);
        }
        let name = self.names.number(&text);
        if is_token(&text) {
            return Ok(Kind::Token(name));
        }
        Ok(Kind::Call {
            name,
            arguments: self.arguments()?,
            precedence: 0,
        })
    }

    fn arguments(&mut self) -> Result<u32, String> {
        if !self.take("[") {
            return Ok(0);
        }
        let arguments = self.number()?;
        self.expect("]")?;
        Ok(arguments)
    }

    /// The word of a call with a precedence is one more than it.
    fn precedence(&mut self) -> Result<u32, String> {
        if self.tokens.first() != Some(&Token::Raised) {
            return Ok(0);
        }
        self.skip();
        let precedence = self.number()?;
        precedence
            .checked_add(1)
            .ok_or_else(|| format!("no word has the precedence {precedence}"))
    }

    fn semantics(&mut self, sort: Sort) -> Result<Semantics, String> {
        self.expect("{")?;
        let id = self.id(sort)?;
        let mut references = Vec::new();
        while !self.take("}") {
            self.expect("$")?;
            let text = self.name()?;
            let name = self.names.number(&text);
            references.push(Reference {
                kind: self.reference_kind()?,
                name,
            });
        }
        Ok(Semantics { id, references })
    }

    /// The attribute's name is read and not kept: a sheet has no place for it.
    fn reference_kind(&mut self) -> Result<u32, String> {
        let kind = match () {
            () if self.take(".") => 1,
            () if self.take("::") => 2,
            () => return Ok(0),
        };
        self.name()?;
        Ok(kind)
    }

    fn quantifier(&mut self) -> u32 {
        let greedy = match () {
            () if self.take("?") => 1,
            () if self.take("*") => 3,
            () if self.take("+") => 5,
            () => return 0,
        };
        greedy + u32::from(self.take("?"))
    }

    pub(super) fn options(&mut self) -> Result<Vec<OptionDecl>, String> {
        let mut options = Vec::new();
        if !self.take("<") {
            return Ok(options);
        }
        loop {
            let text = self.name()?;
            let name = self.names.number(&text);
            self.expect("=")?;
            options.push(OptionDecl {
                name,
                value: self.number()?,
            });
            if self.take(">") {
                return Ok(options);
            }
            self.expect(",")?;
        }
    }
}
