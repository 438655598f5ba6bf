//! What stands ahead in the text.

use super::Parser;
use crate::fault::Fault;
use crate::scan::{Token, What};

impl<'a> Parser<'a> {
    /// The last of the tokens, the end, is never skipped.
    pub(crate) fn ahead(&self) -> Token<'a> {
        self.tokens[0]
    }

    pub(super) fn is_ahead(&self, mark: &str) -> bool {
        self.ahead().is_mark(mark)
    }

    pub(crate) fn skip(&mut self) {
        if self.tokens.len() > 1 {
            self.tokens = &self.tokens[1..];
        }
    }

    pub(crate) fn take(&mut self, mark: &str) -> bool {
        let found = self.is_ahead(mark);
        if found {
            self.skip();
        }
        found
    }

    pub(crate) fn expect(&mut self, mark: &str) -> Result<(), Fault> {
        if self.take(mark) {
            return Ok(());
        }
        Err(self.fault(&format!("`{mark}`")))
    }

    pub(crate) fn number(&mut self) -> Result<u32, Fault> {
        let What::Number(number) = self.ahead().what else {
            return Err(self.fault("a number"));
        };
        self.skip();
        Ok(number)
    }

    /// The number of a name, with or without a text.
    pub(super) fn named(&mut self, expected: &str) -> Result<u32, Fault> {
        if let What::Numbered(_, number) = self.ahead().what {
            self.skip();
            return Ok(number);
        }
        let text = self.name(expected)?;
        Ok(self.names.number_for(text))
    }

    /// Any text of a name; `_` is epsilon's.
    pub(crate) fn name(&mut self, expected: &str) -> Result<&'a str, Fault> {
        match self.ahead().what {
            What::Name(name) if name != "_" => {
                self.skip();
                Ok(name)
            }
            _ => Err(self.fault(expected)),
        }
    }

    pub(crate) fn fault(&self, expected: &str) -> Fault {
        self.ahead().fault(expected)
    }
}
