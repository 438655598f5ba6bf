//! Wide names: sheets that show where a name is cut to 16 bits, where names that differ by their high halves alone are taken for
//! one, and where a set of names loses or keeps one.

use crate::edges::{Edge, edge};

/// The last name (SPECIFICATION 2.15).
const LAST: u32 = u32::MAX;

pub fn wide_names() -> Vec<Edge> {
    let parts = [
        every_place(),
        rules_by_name(),
        low_halves_alike(),
        the_last_twice(),
        sets_of_names(),
        sets_one_after_another(),
    ];
    parts.into_iter().flatten().collect()
}

/// One name over 65,535, in each place where a name can stand, and the last name in all of them.
fn every_place() -> Vec<Edge> {
    vec![
        edge("rule 65536", "e: a | INT; a: e PLUS; r_65536: X;"),
        edge(
            "option 65536 of an alternative",
            "e: <o_65536=1> a | INT; a: e PLUS;",
        ),
        edge(
            "option 65536 of an element",
            "e: a | INT<o_65536=1>; a: e PLUS;",
        ),
        edge("label 65536", "e: a | x_65536=INT; a: e PLUS;"),
        edge("reference 65536", "e: a | INT {$x_65536}; a: e PLUS;"),
        edge("call 65536", "e: a | INT; a: e zz_65536;"),
        edge("token 65536", "e: a | INT; a: e T_65536;"),
        (
            format!("the name {LAST} everywhere"),
            format!(
                "n_{LAST}: <n_{LAST}=1> a | n_{LAST}=T_{LAST}<n_{LAST}=2> {{$n_{LAST}}} ( n_{LAST} ); a: n_{LAST} PLUS;"
            ),
        ),
    ]
}

/// Rules of one low half, each called; and a call of that low half which is of no rule.
fn rules_by_name() -> Vec<Edge> {
    vec![
        edge(
            "rules 1 and 65537",
            "e_1: a_65537 | INT; a_65537: e_1 PLUS;",
        ),
        edge(
            "rules 65537 and 1",
            "e_65537: a_1 | INT; a_1: e_65537 PLUS;",
        ),
        edge(
            "rules 1, 65537 and 131073",
            "e_1: b_131073 | INT; a_65537: e_1 PLUS; b_131073: a_65537 MINUS;",
        ),
        edge(
            "rule 1 and an unknown call 65537",
            "e_1: a | INT; a: zz_65537 PLUS;",
        ),
        edge(
            "rule 65537 and an unknown call 1",
            "e_65537: a | INT; a: zz_1 PLUS;",
        ),
    ]
}

/// Two names of one low half: nothing collides.
fn low_halves_alike() -> Vec<Edge> {
    let mut made = vec![edge(
        "labels 9 and 65545",
        "e: a x_9=INT | INT; a: x_65545=e PLUS;",
    )];
    for other in [65_541_u32, 2_147_483_653] {
        made.push((
            format!("labels 5 and {other}"),
            format!("e: a x_5=X | INT; a: e x_{other}=PLUS;"),
        ));
        made.push((
            format!("reference 5 and token {other}"),
            format!("e: a {{$x_5}} | INT; a: e T_{other};"),
        ));
        made.push((
            format!("reference 5 and the rule {other}"),
            format!("e: a_{other} {{$x_5}} | INT; a_{other}: e PLUS;"),
        ));
        made.push((
            format!("options 5 and {other}"),
            format!("e: <o_5=1> a | INT; a: <o_{other}=2> e PLUS;"),
        ));
    }
    made
}

/// The last name twice: it collides.
fn the_last_twice() -> Vec<Edge> {
    vec![
        (
            format!("two labels {LAST}"),
            format!("e: a x_{LAST}=X | INT; a: e x_{LAST}=PLUS;"),
        ),
        (
            format!("reference and token {LAST}"),
            format!("e: a {{$x_{LAST}}} | INT; a: e T_{LAST};"),
        ),
        (
            format!("reference to the rule {LAST}"),
            format!("e: a_{LAST} {{$a_{LAST}}} | INT; a_{LAST}: e PLUS;"),
        ),
        (
            format!("two options {LAST}"),
            format!("e: <o_{LAST}=1> a | INT; a: <o_{LAST}=2> e PLUS;"),
        ),
    ]
}

/// References in falling, in rising and in no order, of which each is bound in turn, and a name that is none of them; a name
/// that is both a label and a reference.
fn sets_of_names() -> Vec<Edge> {
    let orders: [(&str, &[u32]); 3] = [
        ("falling", &[LAST, 65_545, 9]),
        ("rising", &[9, 65_545, LAST]),
        ("mixed", &[131_081, 9, LAST, 65_545, 196_617]),
    ];
    let mut made = Vec::new();
    for (order, names) in orders {
        let references: Vec<String> = names.iter().map(|name| format!("$x_{name}")).collect();
        for bound in names.iter().chain([&262_153]) {
            made.push((
                format!("{order} references and token {bound}"),
                format!("e: a {{{}}} | INT; a: e T_{bound};", references.join(" ")),
            ));
        }
    }
    made.extend([
        edge(
            "a label, then a reference of its name, and a label",
            "e: a x_9=X {$x_9} | INT; a: e x_9=PLUS;",
        ),
        edge(
            "a reference, then a label of its name, and a token",
            "e: a {$x_9} x_9=X | INT; a: e T_9;",
        ),
    ]);
    made
}

/// What stands around one call binds nothing around the next, which has names of its own around it.
fn sets_one_after_another() -> Vec<Edge> {
    vec![
        edge(
            "a label of the first alternative bound in the second",
            "e: a x=X | b y=Y | INT; a: e PLUS; b: e x=MINUS;",
        ),
        edge(
            "a reference of the first alternative bound in the second",
            "e: a {$MINUS} | b {$y} | INT; a: e PLUS; b: e MINUS;",
        ),
    ]
}
