//! SHA-256 compared with published digests, and with Python's `hashlib` for every length up to 300.

use lots::sha256::digest;

fn hex(bytes: &[u8]) -> String {
    bytes
        .iter()
        .fold(String::new(), |text, byte| text + &format!("{byte:02x}"))
}

/// NIST's examples for FIPS 180-4, and the empty text.
#[test]
fn published_digests() {
    let million = "a".repeat(1_000_000);
    for (text, wanted) in [
        (
            "",
            "e3b0c44298fc1c149afbf4c8996fb92427ae41e4649b934ca495991b7852b855",
        ),
        (
            "abc",
            "ba7816bf8f01cfea414140de5dae2223b00361a396177a9cb410ff61f20015ad",
        ),
        (
            "abcdbcdecdefdefgefghfghighijhijkijkljklmklmnlmnomnopnopq",
            "248d6a61d20638b8e5c026930c3e6039a33ce45964ff2167f6ecedd419db06c1",
        ),
        (
            "abcdefghbcdefghicdefghijdefghijkefghijklfghijklmghijklmnhijklmnoijklmnopjklmnopq\
             klmnopqrlmnopqrsmnopqrstnopqrstu",
            "cf5b16a778af8380036ce59e7b0492370b249b11e8f07a51afac45037afee9d1",
        ),
        (
            million.as_str(),
            "cdc76e5c9914fb9281a1c7e284d73e67f1809a48a497200e046d39ccc7112cd0",
        ),
    ] {
        assert_eq!(
            hex(&digest(text.as_bytes())),
            wanted,
            "{} bytes",
            text.len()
        );
    }
}

/// Each text begins with the digest before it, so that the last digest depends on all. In Python:
/// `d = b""`, and for each n `d = sha256(d + bytes((7 * k + n) & 255 for k in range(n))).digest()`.
#[test]
fn every_length() {
    let mut text = Vec::new();
    for length in 0..=300_u32 {
        text.extend((0..length).map(|place| (7 * place + length).to_le_bytes()[0]));
        text = digest(&text).to_vec();
    }
    assert_eq!(
        hex(&text),
        "e484fcdde81a538984df24b900f0f51cf7aec4292e8513cf1f6c14ad91c4b4df"
    );
}
