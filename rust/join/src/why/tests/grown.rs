//! Grammars from a seed, in which much stands in the way of joining.

/// Splitmix64.
pub(super) struct Random(pub u64);

impl Random {
    fn below(&mut self, end: u64) -> u64 {
        self.0 = self.0.wrapping_add(0x9e37_79b9_7f4a_7c15);
        let mixed = (self.0 ^ (self.0 >> 30)).wrapping_mul(0xbf58_476d_1ce4_e5b9);
        let mixed = (mixed ^ (mixed >> 27)).wrapping_mul(0x94d0_49bb_1331_11eb);
        (mixed ^ (mixed >> 31)) % end
    }

    fn one<'a>(&mut self, of: &[&'a str]) -> &'a str {
        of[self.below(of.len() as u64) as usize]
    }

    fn seldom<'a>(&mut self, number: u64, of: &[&'a str]) -> &'a str {
        match self.below(number) {
            0 => self.one(of),
            _ => "",
        }
    }

    fn call(&mut self) -> String {
        let (label, name) = (
            self.seldom(9, &["x=", "y="]),
            self.one(&["e", "a", "b", "c"]),
        );
        let more = self.seldom(5, &["?", "?", "?", "??", "*", "[5]", "<o=1>"]);
        format!("{label}{name}{more}")
    }

    fn element(&mut self, bodies: bool) -> String {
        match self.below(9) {
            0 | 1 => self.call(),
            2 if bodies => {
                let references = ["", "$a", "$b", "$x", "$X.text", "$b::y"];
                format!("{{{}}}", self.one(&references))
            }
            3 => format!("( {} | {} )", self.call(), self.one(&["X", "", "a"])),
            4 if bodies => self.one(&["{}", "&{$x}", "&{$c}"]).to_owned(),
            5 => {
                let others = ["X?", "_", "n", "none", "EOF", "x=EOF+"];
                self.one(&others).to_owned()
            }
            _ => self.one(&["X", "Y", "x=X", "y=Z"]).to_owned(),
        }
    }

    fn alternative(&mut self, bodies: bool) -> String {
        let front = self.seldom(7, &["#", "<o=1>", "<o=2>"]);
        let silent = if bodies { "{}" } else { "_" };
        let before = ["_", silent, "X?", "n", "EOF", "EOF*"];
        let mut out = format!("{front} {}", self.seldom(6, &before));
        if self.below(3) > 0 {
            out += &format!(" {}", self.call());
        }
        for _ in 0..self.below(3) {
            out += &format!(" {}", self.element(bodies));
        }
        out
    }

    /// Bodies stand in few rules but the first: a satellite that has one cannot be inlined.
    pub(super) fn grammar(&mut self) -> String {
        let mut out = String::from(self.seldom(6, &["%preserve a;", "%preserve b;"]));
        for name in ["e", "a", "b", "c"] {
            let bodies = name == "e" || self.below(6) == 0;
            let count = 1 + self.below(2);
            let all: Vec<String> = (0..count).map(|_| self.alternative(bodies)).collect();
            let flags = self.seldom(20, &["!1", "!2", "!3"]);
            out += &format!("{name} {flags}: {};\n", all.join(" |"));
        }
        out + "n: X?;\n"
    }
}
