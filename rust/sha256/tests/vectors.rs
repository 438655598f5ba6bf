//! The examples of FIPS 180-4 and its test vectors, and every length around a block's end.

use sha256::hex;

#[test]
fn published_vectors() {
    let two_blocks = b"abcdbcdecdefdefgefghfghighijhijkijkljklmklmnlmnomnopnopq";
    let million = vec![b'a'; 1_000_000];
    for (bytes, expected) in [
        (
            &b""[..],
            "e3b0c44298fc1c149afbf4c8996fb92427ae41e4649b934ca495991b7852b855",
        ),
        (
            b"abc",
            "ba7816bf8f01cfea414140de5dae2223b00361a396177a9cb410ff61f20015ad",
        ),
        (
            two_blocks,
            "248d6a61d20638b8e5c026930c3e6039a33ce45964ff2167f6ecedd419db06c1",
        ),
        (
            &million,
            "cdc76e5c9914fb9281a1c7e284d73e67f1809a48a497200e046d39ccc7112cd0",
        ),
    ] {
        assert_eq!(hex(bytes), expected);
    }
}

/// The digest of the digests of 0 to 200 bytes, as Python's hashlib computes it.
#[test]
fn every_length_around_a_block() {
    let all: Vec<u8> = (0..200).map(|byte| (byte * 7 + 3) as u8).collect();
    let digests = (0..=200).flat_map(|length| sha256::digest(&all[..length]));
    assert_eq!(
        hex(&digests.collect::<Vec<_>>()),
        "3275febb4612d86d586eb9f11cd21e648a9fc7d95e0f6b8d362786e28c9c5b79"
    );
}
