//! Sheets that are declined for a reason of SPECIFICATION 10, or are not, where a comparison could
//! be wrong for large numbers only: names of up to 16 bits, long splices, long lists.

use crate::edges::{Edge, edge, repeat};

/// The last name of 16 bits.
const LAST: usize = 65_535;

pub fn reasons() -> Vec<Edge> {
    let parts = [
        names_apart(),
        names_alike(),
        predicates(),
        inner_bindings(),
        splices(),
        lists(),
    ];
    parts.into_iter().flatten().collect()
}

/// Two names that differ by a power of two, or by the range: nothing collides.
fn names_apart() -> Vec<Edge> {
    let mut made = Vec::new();
    for other in [261, 1_029, 4_101, 16_389, 32_773, LAST] {
        made.push((
            format!("labels 5 and {other}"),
            format!("e: a x_5=X | INT; a: e x_{other}=PLUS;"),
        ));
        made.push((
            format!("reference 5 and token {other}"),
            format!("e: a {{$x_5}} | INT; a: e T_{other};"),
        ));
        made.push((
            format!("options 5 and {other}"),
            format!("e: <o_5=1> a | INT; a: <o_{other}=2> e PLUS;"),
        ));
        made.push((
            format!("rules 5 and {other}"),
            format!("e: a_5 b_{other} | INT; a_5: e PLUS; b_{other}: X;"),
        ));
    }
    made
}

/// One name twice, large and small: it collides.
fn names_alike() -> Vec<Edge> {
    let mut made = Vec::new();
    for name in [5, 32_767, 32_768, 40_000, LAST] {
        made.push((
            format!("two labels {name}"),
            format!("e: a x_{name}=X | INT; a: e x_{name}=PLUS;"),
        ));
        made.push((
            format!("reference and token {name}"),
            format!("e: a {{$x_{name}}} | INT; a: e T_{name};"),
        ));
        made.push((
            format!("reference to the rule {name}"),
            format!("e: a_{name} {{$a_{name}}} | INT; a_{name}: e PLUS;"),
        ));
        made.push((
            format!("two options {name}"),
            format!("e: <o_{name}=1> a | INT; a: <o_{name}=2> e PLUS;"),
        ));
    }
    made
}

/// References of predicates, of each kind, in front, behind and in a block.
fn predicates() -> Vec<Edge> {
    vec![
        edge(
            "a predicate's reference to the rule",
            "e: a &{$a} | INT; a: e PLUS;",
        ),
        edge(
            "a predicate's reference to the rule, non-local",
            "e: a ( &{$a::x} ) | INT; a: e PLUS;",
        ),
        edge(
            "a predicate's reference to the rule of a split",
            "e: a? &{$a.x} X | INT; a: e PLUS;",
        ),
        edge(
            "a predicate's reference to a token",
            "e: a &{$PLUS} | INT; a: e PLUS;",
        ),
        edge(
            "a predicate's reference in a block",
            "e: a ( X | &{$PLUS.text} ) | INT; a: e PLUS;",
        ),
        edge(
            "a predicate's reference, non-local",
            "e: a &{$PLUS::x} | INT; a: e PLUS;",
        ),
        edge(
            "a predicate's reference in front of the call",
            "e: &{$PLUS} a X | INT; a: e PLUS;",
        ),
    ]
}

/// What is bound inside blocks: by a label, a token, a call, two deep.
fn inner_bindings() -> Vec<Edge> {
    vec![
        edge(
            "a label bound in a block",
            "e: a {$x} | INT; a: e ( x=PLUS );",
        ),
        edge(
            "a token bound two blocks deep",
            "e: a {$PLUS} | INT; a: e ( X | ( Y PLUS ) );",
        ),
        edge(
            "a call bound in a block",
            "e: a {$b} | INT; a: e ( b ); b: X;",
        ),
        edge("a label of a block", "e: a {$x} | INT; a: e x=( PLUS );"),
        edge(
            "labels of two blocks",
            "e: a x=( X ) | INT; a: e x=( PLUS );",
        ),
    ]
}

/// So many elements spliced in place of one call.
fn splices() -> Vec<Edge> {
    [59, 60, 61, 127, 128, 129, 300]
        .into_iter()
        .map(|many| {
            let tail = repeat(many - 1, "T", " ");
            (
                format!("a splice of {many} elements"),
                format!("e: a | INT; a: e {tail};"),
            )
        })
        .collect()
}

/// So many alternatives in a list: odd ones around powers of two, and one between.
fn lists() -> Vec<Edge> {
    [3, 5, 7, 9, 15, 17, 31, 33, 63, 65, 77, 127, 129]
        .into_iter()
        .map(|many| {
            let joined = repeat(many - 1, "e T", " | ");
            (
                format!("a list of {many} alternatives"),
                format!("e: a | INT; a: {joined};"),
            )
        })
        .collect()
}
