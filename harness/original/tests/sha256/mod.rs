//! SHA-256 (FIPS 180-4). Its constants are the first 32 bits of the fractional
//! parts of the roots of the first primes, computed here.

/// The first 32 bits of the fractional part of the square (2) or cube (3) root.
fn root_fraction(prime: u128, degree: u32) -> u32 {
    let scaled = prime << (32 * degree);
    // The integer part of the root times 2^32, by halving.
    let (mut low, mut high) = (0_u128, 1 << 36);
    while low + 1 < high {
        let middle = (low + high) / 2;
        if middle.pow(degree) <= scaled {
            low = middle
        } else {
            high = middle
        }
    }
    (low & 0xffff_ffff) as u32
}

fn primes() -> impl Iterator<Item = u128> {
    (2_u128..).filter(|number| (2..*number).all(|divisor| number % divisor != 0))
}

pub fn hex(data: &[u8]) -> String {
    let keys: Vec<u32> = primes()
        .take(64)
        .map(|prime| root_fraction(prime, 3))
        .collect();
    let mut state: Vec<u32> = primes()
        .take(8)
        .map(|prime| root_fraction(prime, 2))
        .collect();
    let mut padded = data.to_vec();
    padded.push(0x80);
    while padded.len() % 64 != 56 {
        padded.push(0);
    }
    padded.extend((data.len() as u64 * 8).to_be_bytes());
    for chunk in padded.chunks_exact(64) {
        compress(&mut state, chunk, &keys);
    }
    state.iter().map(|word| format!("{word:08x}")).collect()
}

fn schedule(chunk: &[u8]) -> Vec<u32> {
    let words = chunk.chunks_exact(4);
    let mut w: Vec<u32> = words
        .map(|four| u32::from_be_bytes([four[0], four[1], four[2], four[3]]))
        .collect();
    for i in 16..64 {
        let (a, b) = (w[i - 15], w[i - 2]);
        let s0 = a.rotate_right(7) ^ a.rotate_right(18) ^ (a >> 3);
        let s1 = b.rotate_right(17) ^ b.rotate_right(19) ^ (b >> 10);
        w.push(
            w[i - 16]
                .wrapping_add(s0)
                .wrapping_add(w[i - 7])
                .wrapping_add(s1),
        );
    }
    w
}

fn compress(state: &mut [u32], chunk: &[u8], keys: &[u32]) {
    let mut v: Vec<u32> = state.to_vec();
    for (word, key) in schedule(chunk).iter().zip(keys) {
        let (a, e) = (v[0], v[4]);
        let s1 = e.rotate_right(6) ^ e.rotate_right(11) ^ e.rotate_right(25);
        let choice = (e & v[5]) ^ (!e & v[6]);
        let t1 = v[7]
            .wrapping_add(s1)
            .wrapping_add(choice)
            .wrapping_add(*key)
            .wrapping_add(*word);
        let s0 = a.rotate_right(2) ^ a.rotate_right(13) ^ a.rotate_right(22);
        let majority = (a & v[1]) ^ (a & v[2]) ^ (v[1] & v[2]);
        v.rotate_right(1);
        v[0] = t1.wrapping_add(s0).wrapping_add(majority);
        v[4] = v[4].wrapping_add(t1);
    }
    for (word, own) in state.iter_mut().zip(v) {
        *word = word.wrapping_add(own);
    }
}
