//! Sheets on both sides of a line, and points that one sheet tells apart. Each has a name that says
//! what it is, so that a wrong definition can point at the sheet that shows it.
//!
//! Where a planned list must not end in a long result, an alternative with nothing significant in it
//! stands first: the list is full, and the cycle is then declined as not directly rewritable.

use crate::reasons::reasons;
use crate::wide::wide_names;

/// A name and a grammar in the notation.
pub type Edge = (String, String);

/// An alternative that calls a becomes 64, each with e in its place.
const SPLICES: &str = "a: b | b | b | b | b | b | b | b; b: e | e | e | e | e | e | e | e;";

pub fn edges() -> Vec<Edge> {
    let parts = [
        planned_lists(),
        full_at_the_start(),
        many_rules(),
        counters(),
        order_of_work(),
        copies(),
        single_points(),
        precedences(),
        [38, 39].map(result_near_nine).into(),
        results_too_long(),
        reasons(),
        wide_names(),
    ];
    parts.into_iter().flatten().collect()
}

pub(crate) fn edge(name: &str, grammar: &str) -> Edge {
    (name.to_owned(), grammar.to_owned())
}

pub(crate) fn repeat(many: usize, part: &str, between: &str) -> String {
    vec![part; many].join(between)
}

fn alternatives(many: usize, alternative: &str) -> String {
    repeat(many, alternative, " | ")
}

/// An alternative of so many options and, where it has any, elements.
fn with_options(many: usize, elements: &str) -> String {
    format!("<{}> {elements}", repeat(many, "o=1", ","))
}

/// 16 times 128 options after 5 steps.
fn full_of_options() -> String {
    format!(
        "{}; a: b | b | b | b; b: e | e | e | e;",
        with_options(128, "a")
    )
}

/// After the last step a list is as large as it may be, or larger by one.
fn planned_lists() -> Vec<Edge> {
    let many = format!(
        "a: {}; b: {};",
        alternatives(31, "b"),
        alternatives(33, "e")
    );
    let long = format!("a {}", repeat(127, ".", " "));
    let options = full_of_options();
    vec![
        edge("alternatives 1024", &format!("e: | a; {many}")),
        edge("alternatives 1025", &format!("e: | a | INT; {many}")),
        edge("elements 8192", &format!("e: | {long}; {SPLICES}")),
        edge("elements 8193", &format!("e: | {long} | INT; {SPLICES}")),
        edge("options 2048", &format!("e: | {options}")),
        edge("options 2049", &format!("e: | <o=1> INT | {options}")),
    ]
}

/// A hub beyond a limit that needs no step, so that nothing is judged.
fn full_at_the_start() -> Vec<Edge> {
    let empty = alternatives(1_025, "");
    let options = with_options(2_049, "");
    vec![
        edge(
            "1025 alternatives without a step",
            &format!("e: {empty} | ( a ); a: e PLUS;"),
        ),
        edge(
            "2049 options without a step",
            &format!("e: {options} | ( a ); a: e PLUS;"),
        ),
    ]
}

fn many_rules() -> Vec<Edge> {
    let bare = |from: usize, to: usize| {
        (from..=to)
            .map(|at| format!(" r{at}: -;"))
            .collect::<String>()
    };
    let chain: String = (1..24)
        .map(|at| format!(" c{at}: c{} T;", at + 1))
        .collect();
    vec![
        edge(
            "rules 20",
            &format!("e: a | INT; a: e PLUS;{}", bare(3, 20)),
        ),
        edge(
            "rules 128",
            &format!("e: a | INT; a: e PLUS;{}", bare(3, 128)),
        ),
        edge("chain of 24", &format!("e: c1 | INT;{chain} c24: e PLUS;")),
    ]
}

/// Of each sort the plan below hands out so many ids: the counter ends at its end, or past it.
fn counters() -> Vec<Edge> {
    let sorts = [
        "alternatives",
        "elements",
        "labels",
        "actions",
        "predicates",
    ];
    let handed_out = [2_u64, 7, 2, 1, 1];
    let free = [14_u64, 29, 2, 1, 1];
    let mut made = Vec::new();
    for (place, sort) in sorts.iter().enumerate() {
        for (word, end) in [("at", u64::from(u32::MAX)), ("past", 1 << 32)] {
            let mut counters = free;
            counters[place] = end - handed_out[place];
            let counters = counters.map(|counter| counter.to_string()).join(" ");
            let grammar =
                format!("%counters {counters}; e: a x=X {{}} &{{}} ( y=Y ) | INT; a: e PLUS;");
            made.push((format!("counter of {sort} {word} its end"), grammar));
        }
    }
    made
}

/// What is met first decides: a limit passed, a corner that is blocked, a cycle that is declined.
/// The plan behind the 7 would meet 8, so that it shows where the plan is taken first.
fn order_of_work() -> Vec<Edge> {
    let full = full_of_options();
    let (first, rest) = full.split_once(';').expect("rules end in semicolons");
    let plan = "f: g | INT; g: f MINUS;";
    let blocked = "x=a";
    vec![
        edge(
            "7 in front of a plan",
            &format!("%counters 1000 4294967295 0 0 0; e: <o=1> INT | {full} {plan}"),
        ),
        edge(
            "declined in front of a plan",
            &format!("e: a X; a: e Y; {plan}"),
        ),
        edge(
            "7 in front of a blocked corner",
            &format!("e: <o=1> INT | {first} | {blocked};{rest}"),
        ),
        edge(
            "a blocked corner in front of 7",
            &format!("e: <o=1> INT | {blocked} | {first};{rest}"),
        ),
        edge(
            "a dangling reference in front of a blocked corner",
            "e: a {$a} | x=a | INT; a: e PLUS;",
        ),
        edge(
            "7 before 8",
            &format!("%counters 4294967295 1000 0 0 0; e: <o=1> INT | {full} {plan}"),
        ),
    ]
}

/// What copies have to keep, and a long trail: 32 copies of 31 labelled elements.
fn copies() -> Vec<Edge> {
    let tail = repeat(31, "x=.", " ");
    let joined = alternatives(32, "e");
    let too_long = format!("e: a {} | INT; {SPLICES}", repeat(22, ".", " "));
    vec![
        edge(
            "nested copies",
            "e: ~4 # <h=1> a ( ~5 # <o=1,o=2> x=X<p=2,q=3>~6 {$x $X.m $k::n} \
             ( # <q=3> &{$k::z $y} y=( # <r=4> Y?<s=5> | ~7 <t=1> b[9]*<u=1> | )+<v=1>~8 | z=Z )??<w=7> | <t=6> )*<y=8> \
             | INT; a: e PLUS | <k=2> e MINUS u=( ~9 # <k=1> v=V<l=1> | ( <m=1> _ | w=W ) );",
        ),
        edge(
            "trail of 2049 entries",
            &format!("e: a {tail} | INT; a: {joined};"),
        ),
        edge("result over 32768 bytes", &too_long),
        edge(
            "8 before 9",
            &format!("%counters 1000 4294967295 0 0 0; {too_long}"),
        ),
    ]
}

fn single_points() -> Vec<Edge> {
    vec![
        edge(
            "65 steps of 81",
            "e: a? a? V | c | INT | T | U | W; a: b? b? b? X e; b: c? c? c? c? Y e; c: e Z;",
        ),
        edge("a call behind the hub", "e: a | INT; a: e b; b: X;"),
        edge("an unknown call behind the hub", "e: a | INT; a: e zz;"),
        edge(
            "empty by way of another rule",
            "e: a | INT; a: e n; n: m; m: ;",
        ),
        edge(
            "called from outside in a block",
            "s: ( b ); a: b X | INT; b: a Y | NAME;",
        ),
        edge(
            "spliced option of a name that stands twice",
            "e: <o=1,o=2> a | INT; a: <o=1> e PLUS;",
        ),
    ]
}

/// The word of a precedence decides nothing: it is copied with its call, and goes with a call in whose place others are spliced.
fn precedences() -> Vec<Edge> {
    vec![
        edge(
            "a spliced call with a precedence",
            "e: a^3 | INT; a: e PLUS;",
        ),
        edge(
            "a copied call with a precedence",
            "e: a | INT; a: e PLUS e^3;",
        ),
        edge(
            "a split call with a precedence",
            "e: a | e?^3 X | INT; a: e PLUS;",
        ),
        edge(
            "a spliced call with a precedence and a split one behind it",
            "e: a^7 | INT; a: e PLUS | b?^4294967294 Y; b: e^0 zz[9]^1;",
        ),
    ]
}

/// One plan of 289 new alternatives, and two words of its result for each option: 38 are the most
/// that 32,768 bytes hold.
fn result_near_nine(options: usize) -> Edge {
    let options_of: Vec<String> = (0..options).map(|at| format!("o{at}=1")).collect();
    let grammar = format!(
        "e: a | <{}> INT; a: {}; b: {};",
        options_of.join(","),
        alternatives(17, "b T"),
        alternatives(17, "e T")
    );
    (format!("edge-9 with {options} options"), grammar)
}

/// A cycle whose joined rule has so many words: 16 for itself and INT, and 8 times 21 and two for each
/// option of the token.
fn eight_long(hub: &str, satellite: &str, options: usize) -> String {
    let token = format!("T{}", with_options(options, ""));
    let calls = alternatives(8, hub);
    format!("{hub}: {satellite} {token}| INT; {satellite}: {calls};")
}

/// Results over 32,768 bytes, each for a reason of its own (SPECIFICATION 4.9), and 9 where 7 or 8 would
/// be met later. With 500 options eight copies have 8,192 words with the trailer, as many as are allowed.
fn results_too_long() -> Vec<Edge> {
    let fits = eight_long("e", "a", 500);
    let too_long = eight_long("f", "g", 501);
    let own = with_options(256, "a");
    let token = format!("T{}", with_options(245, ""));
    let eight = alternatives(8, "e");
    let block = alternatives(91, ".");
    let full = full_of_options();
    vec![
        edge("9 by options of elements", &too_long),
        edge(
            "9 by options of alternatives",
            &format!("e: {own} {token}| INT; a: {eight};"),
        ),
        edge(
            "9 by nested alternatives",
            &format!("e: a ( {block} ) | INT; a: {eight};"),
        ),
        edge("9 by one preserved id", &format!("%preserve 900; {fits}")),
        edge(
            "9 by a satellite that stays",
            &format!("%preserve a; {fits}"),
        ),
        edge("9 by a rule outside the cycle", &format!("{fits} r: ;")),
        edge(
            "9 in the second plan",
            &format!("f: g | INT; g: f PLUS; {fits}"),
        ),
        edge(
            "9 in front of 7",
            &format!("{too_long} e: <o=1> INT | {full}"),
        ),
        edge(
            "9 in front of 8",
            &format!("%counters 1000 1000 4294967295 0 0; {too_long} e: a x=X | INT; a: e PLUS;"),
        ),
    ]
}
