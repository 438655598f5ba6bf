//! Grammars with the end of input (kind 7), written by hand: what it is for the pass, each with its neighbours.

pub const ENDS: [&str; 45] = [
    // It is looked past, whatever its quantifier; other symbols end the original's search as before.
    "e: a; a: e . | EOF e;",
    "e: a; a: e . | . e;",
    "e: EOF a | INT; a: e PLUS;",
    "e: EOF+ a | INT; a: e PLUS;",
    "e: a | INT; a: e PLUS | EOF e MINUS;",
    "e: a | INT; a: e PLUS | EOF*? e MINUS;",
    "e: a | INT; a: e PLUS | ( EOF ) e MINUS;",
    "e: a | INT; a: e PLUS | ( EOF | X ) e MINUS;",
    "e: a | INT; a: e PLUS | EOF X e MINUS;",
    // There the readings part, for the symbol beside it.
    "e: a | INT; a: e PLUS | EOF NAME? e MINUS;",
    "e: a | INT; a: e PLUS | NAME? EOF e MINUS;",
    "e: a | INT; a: e PLUS | EOF? NAME+ e MINUS;",
    // It can be empty, whatever its quantifier: in a tail, a rule, a block.
    "e: a | INT; a: e EOF;",
    "e: a | INT; a: e EOF+;",
    "e: a | INT; a: e EOF+? EOF?;",
    "e: a | INT; a: e .;",
    "e: a | INT; a: e n; n: EOF;",
    "e: a | INT; a: e n PLUS; n: X EOF | EOF+ EOF;",
    "e: a | INT; a: e ( EOF );",
    "e: a | INT; a: e ( EOF | PLUS );",
    "e: a | INT; a: e ( EOF PLUS );",
    "e: a | INT; a: e EOF PLUS;",
    "n: EOF; e: n a | INT; a: e X;",
    "e: n INT | a; a: e PLUS; n: EOF;",
    // It settles a corner, and is something to begin with.
    "e: a | EOF; a: e PLUS;",
    "e: a | EOF+; a: e PLUS;",
    "e: a | _ EOF; a: e PLUS;",
    "e: EOF INT | a; a: e PLUS;",
    "e: {} EOF a | INT; a: e PLUS;",
    "e: a? EOF | INT; a: e PLUS;",
    // A hub that can be empty for it may stay in a cycle.
    "e: a | EOF; a: e a PLUS;",
    // It is spliced, and stops no inlining.
    "e: a | INT; a: e PLUS EOF;",
    "e: a EOF? | INT; a: e PLUS ( EOF | ( X EOF*? ) );",
    "e: a EOF | INT; a: e PLUS ( ( ( ( ( ( ( ( EOF ) ) ) ) ) ) ) );",
    "e: a | INT; a: e PLUS EOF~4 | e MINUS EOF~5;",
    "s: e EOF; e: a | INT; a: e PLUS;",
    // It has a label and options as any element, and no name of its own.
    "e: a x=EOF | INT; a: e x=PLUS;",
    "e: a {$x} | INT; a: e PLUS x=EOF;",
    "e: a {$EOF} | INT; a: e PLUS EOF;",
    "e: a y=EOF<o=1> | INT; a: <o=2> e PLUS x=EOF+<p=3>~4;",
    // Ids are counted to the end of their counter, and one beyond.
    "%counters 13 4294967291 0 0 0; e: a EOF | INT; a: e PLUS EOF;",
    "%counters 13 4294967292 0 0 0; e: a EOF | INT; a: e PLUS EOF;",
    "%counters 13 30 4294967293 0 0; e: a x=EOF | INT; a: e PLUS y=EOF;",
    "%counters 13 30 4294967294 0 0; e: a x=EOF | INT; a: e PLUS y=EOF;",
    "%kind lexer; e: a | EOF; a: e EOF PLUS;",
];
