//! Sheets from their words, a record at a time.

pub const FAR: [u32; 5] = [1000; 5];

pub fn bytes(words: &[u32]) -> Vec<u8> {
    words.iter().flat_map(|w| w.to_le_bytes()).collect()
}

/// A parser unit whose distances fit.
pub fn sheet(rules: &[Vec<u32>], preserved: &[u32], counters: [u32; 5]) -> Vec<u8> {
    let mut words = [rules.concat(), preserved.to_vec()].concat();
    let before = words.len() as u32;
    words.extend([2, before, preserved.len() as u32]);
    words.extend(counters);
    bytes(&words)
}

pub fn rule(id: u32, name: u32, alternatives: &[Vec<u32>]) -> Vec<u32> {
    let head = vec![id, name, 0, alternatives.len() as u32];
    [head, alternatives.concat()].concat()
}

pub fn alternative(id: u32, elements: &[Vec<u32>]) -> Vec<u32> {
    let head = vec![id, 0, 0, 0, elements.len() as u32];
    [head, elements.concat()].concat()
}

pub fn element(id: u32, packed: u32, payload: &[u32]) -> Vec<u32> {
    labelled(id, packed, [0, 0], payload)
}

pub fn labelled(id: u32, packed: u32, label: [u32; 2], payload: &[u32]) -> Vec<u32> {
    let head = vec![id, 0, packed, label[0], label[1], 0];
    [head, payload.to_vec()].concat()
}

/// A block around `alternatives`.
pub fn block(id: u32, alternatives: &[Vec<u32>]) -> Vec<u32> {
    let payload = [vec![alternatives.len() as u32], alternatives.concat()].concat();
    element(id, 6, &payload)
}

/// One rule of one alternative with these elements, all counters far away.
pub fn with(elements: &[Vec<u32>]) -> Vec<u8> {
    sheet(&[rule(1, 1, &[alternative(0, elements)])], &[], FAR)
}
