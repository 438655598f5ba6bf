//! Cycles (SPECIFICATION 6.7, 6.8), by a search along the edges and one against them (Kosaraju).

/// The strongly connected sets of more than one rule: members by id, sets by least id. `edges` are
/// the left corners of each rule, `ids` tell the order.
pub fn cycles(edges: &[Vec<usize>], ids: &[u32]) -> Vec<Vec<usize>> {
    let mut against = vec![Vec::new(); edges.len()];
    for (from, targets) in edges.iter().enumerate() {
        targets.iter().for_each(|to| against[*to].push(from));
    }
    let mut seen = vec![false; edges.len()];
    let mut left = Vec::new();
    (0..edges.len()).for_each(|rule| search(rule, edges, &mut seen, &mut left));

    // The rule left last can reach out of its set only to sets that were left before.
    let mut seen = vec![false; edges.len()];
    let mut found = Vec::new();
    for rule in left.into_iter().rev() {
        let mut members = Vec::new();
        search(rule, &against, &mut seen, &mut members);
        members.sort_by_key(|member| ids[*member]);
        if members.len() > 1 {
            found.push(members);
        }
    }
    found.sort_by_key(|members| ids[members[0]]);
    found
}

/// Adds what is reached and was not seen, each rule behind those reached from it.
fn search(rule: usize, edges: &[Vec<usize>], seen: &mut [bool], left: &mut Vec<usize>) {
    if seen[rule] {
        return;
    }
    seen[rule] = true;
    for next in &edges[rule] {
        search(*next, edges, seen, left);
    }
    left.push(rule);
}
