//! Elements of the notation.

use super::Parser;
use crate::MOST_DEPTH;
use crate::fault::Fault;
use crate::names::END_OF_INPUT;
use crate::scan::What;
use crate::tree::{Element, Kind, Label, OptionDecl, Reference, Semantics};
use crate::walk::Sort;

impl Parser<'_> {
    pub(super) fn element_ahead(&self) -> bool {
        let marks = ["^", "(", ".", "&", "{"];
        let foreign = matches!(self.ahead().what, What::Foreign(_));
        self.ahead().is_name() || foreign || marks.iter().any(|mark| self.is_ahead(mark))
    }

    /// Ids are handed out as the pass does: the element, its label, what it holds.
    pub(super) fn element(&mut self, depth: usize) -> Result<Element, Fault> {
        let id = self.element_id()?;
        let label = self.label()?;
        let mut kind = self.atom(depth)?;
        let quantifier = self.quantifier_of(&kind);
        if let Kind::Call { precedence, .. } = &mut kind {
            *precedence = self.precedence()?;
        }
        let options = self.options()?;
        let carried = self.carried()?;
        self.judge_mark_behind()?;
        Ok(Element {
            id,
            carried,
            quantifier,
            label,
            options,
            kind,
        })
    }

    fn element_id(&mut self) -> Result<u32, Fault> {
        let is_written = self.is_ahead("^");
        let id = self.id("^", Sort::Element, self.ahead())?;
        if is_written && !self.element_ahead() {
            let advice = "`^5` is the id of the element behind it; the precedence of a call touches the call: `e^3`";
            return Err(self.ahead().advised("an element", advice));
        }
        Ok(id)
    }

    /// `^3` that touches what stands in front of it; behind a gap it is the id of the next element.
    fn precedence(&mut self) -> Result<u32, Fault> {
        if !self.is_mark_close() {
            return Ok(0);
        }
        self.skip();
        let place = self.ahead();
        let precedence = self.number()?;
        let word = precedence.checked_add(1);
        word.ok_or_else(|| place.fault("a precedence from 0 to 4294967294"))
    }

    fn is_mark_close(&self) -> bool {
        self.is_ahead("^") && self.ahead().is_close
    }

    /// No element but a call has a precedence.
    fn judge_mark_behind(&self) -> Result<(), Fault> {
        if !self.is_mark_close() {
            return Ok(());
        }
        let advice = "a precedence stands behind a call and its quantifier, as in `e?^3`; in front of the id of the next \
                      element stands a space";
        Err(self.ahead().advised("a space", advice))
    }

    fn label(&mut self) -> Result<Option<Label>, Fault> {
        let ahead = |place: usize| self.tokens.get(place).map(|token| token.what);
        let is_name = self.ahead().is_name();
        let mark = |place, mark| ahead(place) == Some(What::Mark(mark));
        if is_name && mark(1, "+") && mark(2, "=") {
            let advice = "a label is written `x=INT`";
            self.tell(self.tokens[1].advised("`=`", advice));
            (0..3).for_each(|_| self.skip());
            return Ok(None);
        }
        let written = mark(1, "=")
            || (mark(1, "@") && matches!(ahead(2), Some(What::Number(_))) && mark(3, "="));
        if !(written && is_name) {
            return Ok(None);
        }
        let token = self.ahead();
        let name = self.named("a label's name")?;
        let id = self.id("@", Sort::Label, token)?;
        self.expect("=")?;
        Ok(Some(Label { id, name }))
    }

    fn atom(&mut self, depth: usize) -> Result<Kind, Fault> {
        if self.skip_foreign_element() {
            return Ok(Kind::Other);
        }
        if self.is_ahead("(") {
            return self.block(depth + 1);
        }
        if self.take(".") {
            return Ok(Kind::Other);
        }
        if self.take("&") {
            return Ok(Kind::Predicate(self.semantics(Sort::Predicate)?));
        }
        if self.is_ahead("{") {
            return Ok(Kind::Action(self.semantics(Sort::Action)?));
        }
        if self.ahead().what == What::Name("_") {
            self.skip();
            return Ok(Kind::Epsilon);
        }
        if self.ahead().what == What::Name(END_OF_INPUT) {
            self.skip();
            return Ok(Kind::EndOfInput);
        }
        let token = self.ahead();
        let name = self.named("an element")?;
        if token.is_token() {
            return Ok(Kind::Token(name));
        }
        Ok(Kind::Call {
            name,
            arguments: self.arguments()?,
            precedence: 0,
        })
    }

    fn block(&mut self, depth: usize) -> Result<Kind, Fault> {
        if depth > MOST_DEPTH {
            return Err(self.fault("blocks at most 8 deep"));
        }
        self.skip();
        let alternatives = self.alternatives(depth)?;
        self.expect(")")?;
        Ok(Kind::Block(alternatives))
    }

    fn arguments(&mut self) -> Result<u32, Fault> {
        if matches!(self.ahead().what, What::Foreign(text) if text.starts_with('[')) {
            let advice = "arguments are a number here, the same for the same arguments: `e[5]`";
            self.tell(self.ahead().advised("a number in brackets", advice));
            self.skip();
            return Ok(0);
        }
        if !self.take("[") {
            return Ok(0);
        }
        let arguments = self.number()?;
        self.expect("]")?;
        Ok(arguments)
    }

    fn semantics(&mut self, sort: Sort) -> Result<Semantics, Fault> {
        let token = self.ahead();
        self.expect("{")?;
        let id = self.id("@", sort, token)?;
        let mut references = Vec::new();
        let mut attributes = Vec::new();
        while !self.take("}") {
            match self.reference() {
                Ok((reference, attribute)) => {
                    references.push(reference);
                    attributes.push(attribute.to_owned());
                }
                Err(fault) => {
                    self.tell(fault);
                    self.skip_past("}");
                    break;
                }
            }
        }
        if attributes.iter().any(|attribute| !attribute.is_empty()) {
            self.attributes.insert((sort, id), attributes);
        }
        Ok(Semantics { id, references })
    }

    fn reference(&mut self) -> Result<(Reference, &str), Fault> {
        if !self.take("$") {
            let advice = "a body has its references alone: `{$x $x.text}`, or `{}`";
            return Err(self.ahead().advised("`$` or `}`", advice));
        }
        let name = self.named("the name that is referred to")?;
        let (kind, attribute) = self.attribute()?;
        Ok((Reference { kind, name }, attribute))
    }

    /// The kind of a reference, with its attribute; `?` is one that is not known.
    fn attribute(&mut self) -> Result<(u32, &str), Fault> {
        let kind = match () {
            () if self.take(".") => 1,
            () if self.take("::") => 2,
            () => return Ok((0, "")),
        };
        if self.take("?") {
            return Ok((kind, ""));
        }
        Ok((kind, self.name("an attribute's name or `?`")?))
    }

    /// What ANTLR takes for a predicate is an action here, which may be left out.
    fn quantifier_of(&mut self, kind: &Kind) -> u32 {
        let token = self.ahead();
        let quantifier = self.quantifier();
        if quantifier == 1 && matches!(kind, Kind::Action(_)) {
            self.warn(
                token,
                "`{..}?` is read as an action that may be left out; a predicate is written `&{..}`",
            );
        }
        quantifier
    }

    fn quantifier(&mut self) -> u32 {
        let greedy = match () {
            () if self.take("?") => 1,
            () if self.take("*") => 3,
            () if self.take("+") => 5,
            () => return 0,
        };
        greedy + u32::from(self.take("?"))
    }

    fn option_value(&mut self) -> Result<u32, Fault> {
        let token = self.ahead();
        if !token.is_name() && !matches!(token.what, What::Foreign(_)) {
            return self.number();
        }
        let advice =
            "the value of an option is a number here, the same for the same value: `<assoc=1>`";
        self.tell(token.advised("a number", advice));
        self.skip();
        Ok(0)
    }

    pub(super) fn options(&mut self) -> Result<Vec<OptionDecl>, Fault> {
        let mut options = Vec::new();
        if !self.take("<") {
            return Ok(options);
        }
        loop {
            let name = self.named("an option's name")?;
            self.expect("=")?;
            let value = self.option_value()?;
            options.push(OptionDecl { name, value });
            if self.take(">") {
                return Ok(options);
            }
            if !self.take(",") {
                return Err(self.fault("`,` or `>`"));
            }
        }
    }
}
