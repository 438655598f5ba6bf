//! What ANTLR's own texts have and the notation writes otherwise: each is told with what to write, and passed over.

use super::Parser;
use crate::scan::{Token, What};

const LEAVE_OUT: &str = "leave it out, it has no place here";
const OF_ITS_OWN: &str = "write `!2` behind the rule's name in its place: such a rule is never put in place of its call, and \
                          without the mark a cycle may be joined that must be left";
const ARGUMENTS: &str = "write `!1` behind the rule's name in their place, and `!3` where it has something else of its own too";

impl Parser<'_> {
    /// The word at a place ahead.
    fn word(&self, place: usize) -> &str {
        match self.tokens.get(place).map(|token| token.what) {
            Some(What::Name(text)) => text,
            _ => "",
        }
    }

    fn mark(&self, place: usize, mark: &str) -> bool {
        self.tokens
            .get(place)
            .is_some_and(|token| token.is_mark(mark))
    }

    /// Whether a body in braces stands at a place ahead.
    fn is_body(&self, place: usize) -> bool {
        match self.tokens.get(place).map(|token| token.what) {
            Some(What::Foreign(text)) => text.starts_with('{'),
            _ => self.mark(place, "{"),
        }
    }

    fn is_bracket(&self, place: usize) -> bool {
        let what = self.tokens.get(place).map(|token| token.what);
        matches!(what, Some(What::Foreign(text)) if text.starts_with('['))
    }

    fn skip_body(&mut self) {
        match self.ahead().what {
            What::Foreign(_) => self.skip(),
            _ => self.skip_past("}"),
        }
    }

    /// Past the next such mark, or to the end.
    pub(super) fn skip_past(&mut self, mark: &str) {
        while self.ahead().what != What::End && !self.take(mark) {
            self.skip();
        }
    }

    /// A part of ANTLR's units that is no rule.
    pub(super) fn skip_foreign_part(&mut self) -> bool {
        let rule = "a rule or a directive";
        let unit = "leave it out; `%kind lexer;` or `%kind combined;` says what is no parser";
        let (first, second) = (self.word(0), self.word(1));
        let advice = match (first, second) {
            ("grammar", _) if !second.is_empty() && self.mark(2, ";") => unit,
            ("lexer" | "parser", "grammar") => unit,
            ("import" | "mode", _) if !second.is_empty() => LEAVE_OUT,
            ("fragment", _) if !second.is_empty() => {
                self.tell(self.ahead().advised(rule, "leave the word out"));
                self.skip();
                return false;
            }
            ("options" | "tokens" | "channels" | "finally", _) if self.is_body(1) => {
                return self.skip_with_body(rule, 1);
            }
            ("catch", _) if self.is_bracket(1) => return self.skip_with_body(rule, 2),
            _ if self.mark(0, "@") && !second.is_empty() => {
                let more = if self.mark(2, "::") { 4 } else { 2 };
                return self.skip_with_body(rule, more);
            }
            _ => return false,
        };
        self.tell(self.ahead().advised(rule, advice));
        self.skip_past(";");
        true
    }

    /// Words, and the body behind them.
    fn skip_with_body(&mut self, expected: &str, words: usize) -> bool {
        let advice = match self.word(0) {
            "catch" | "finally" => OF_ITS_OWN,
            _ => LEAVE_OUT,
        };
        self.tell(self.ahead().advised(expected, advice));
        for _ in 0..words {
            self.skip();
        }
        if self.is_body(0) {
            self.skip_body();
        }
        true
    }

    /// What stands between a rule's name and its colon.
    pub(super) fn skip_foreign_head(&mut self) {
        loop {
            let token = self.ahead();
            let advice = match token.what {
                What::Foreign(text) if text.starts_with('[') => ARGUMENTS,
                What::Name("returns" | "locals" | "throws" | "options") => OF_ITS_OWN,
                What::Mark("@") if !self.word(1).is_empty() => OF_ITS_OWN,
                _ => return,
            };
            self.tell(token.advised("`:`", advice));
            self.skip();
            while !self.is_ahead(":") && !self.is_ahead(";") && !self.is_ahead("@") {
                match self.ahead().what {
                    What::End | What::Name("returns" | "locals" | "throws" | "options") => break,
                    _ if self.is_body(0) => self.skip_body(),
                    _ => self.skip(),
                }
            }
        }
    }

    pub(super) fn is_arrow_ahead(&self) -> bool {
        self.mark(0, "-") && self.mark(1, ">")
    }

    /// What ANTLR writes at the end of an alternative: the name of its label, or a command.
    pub(super) fn skip_foreign_tail(&mut self) -> bool {
        let token = self.ahead();
        if self.is_arrow_ahead() {
            self.tell(token.advised("an element, `|` or `;`", "leave `->` and its commands out"));
            while !self.is_ahead("|") && !self.is_ahead(";") && self.ahead().what != What::End {
                self.skip();
            }
            return true;
        }
        if !self.is_ahead("#") {
            return false;
        }
        let advice = "`#` stands in front of a labelled alternative, alone: write `# e PLUS e` for `e PLUS e # Add`, and \
                      `#: INT` for `INT # Int`";
        self.tell(token.advised("an element, `|` or `;`", advice));
        self.skip();
        if self.ahead().is_name() {
            self.skip();
        }
        true
    }

    /// `~` in front of what is not a number: what ANTLR takes for all but a set.
    pub(super) fn skip_complement(&mut self) -> bool {
        if matches!(self.tokens.get(1), Some(token) if matches!(token.what, What::Number(_) | What::End))
        {
            return false;
        }
        let advice = "a set is written `.~7`, with a number of its own";
        let token = self.tokens[1];
        self.tell(token.advised("a number", advice));
        self.skip();
        true
    }

    /// A literal, a set or code in the place of an element, which it then is.
    pub(super) fn skip_foreign_element(&mut self) -> bool {
        let token = self.ahead();
        let What::Foreign(text) = token.what else {
            return false;
        };
        let is_predicate = self.mark(1, "?");
        let is_range = self.mark(1, ".") && self.mark(2, ".");
        let (expected, advice) = match text.chars().next() {
            Some('{') if is_predicate => (
                "`$` or `}`",
                "a predicate has its references alone, and is written `&{$x}`",
            ),
            Some('{') => (
                "`$` or `}`",
                "an action has its references alone: `{$x $x.text}`, or `{}`",
            ),
            Some('[') => (
                "an element",
                "write a set as `.~7`, with a number of its own, or as a token",
            ),
            _ if is_range => (
                "an element",
                "write a range as `.~7`, with a number of its own, or as a token",
            ),
            _ => (
                "an element",
                "write the name of its token, as in `PLUS` for '+'",
            ),
        };
        self.tell(token.advised(expected, advice));
        let more = match text.starts_with('{') {
            true => usize::from(is_predicate),
            false => 3 * usize::from(is_range),
        };
        (0..=more).for_each(|_| self.skip());
        true
    }

    /// A name behind `#`, which is read as an element; one with `=` behind it is that of an element's own label.
    pub(super) fn keep_behind_label(&mut self) {
        let is_own = self.mark(1, "=") || self.mark(1, "@");
        if !self.word(0).is_empty() && self.word(0) != "_" && !is_own {
            self.behind_labels.push(self.ahead());
        }
    }

    /// Such a name is what ANTLR calls the alternative, unless it is that of a rule, which ANTLR allows no label to have.
    pub(super) fn judge_labels(&mut self, heads: &[Token]) {
        for token in std::mem::take(&mut self.behind_labels) {
            let is_rule = heads.iter().any(|head| head.what == token.what);
            if let What::Name(text) = token.what
                && (token.is_token() || !is_rule)
            {
                let text = format!(
                    "`{text}` behind `#` is read as an element; a labelled alternative has no name behind its mark, \
                     which is written `#:` where such an element comes first"
                );
                self.warn(token, &text);
            }
        }
    }
}
