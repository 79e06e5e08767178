//! The examples of FIPS 180-4, the edges of its padding, and the vectors of RFC 4231.

mod support;

use reference::tag::{hmac, matches, sha256, tag, TAG_LENGTH};
use support::hex;

#[test]
fn examples_of_the_hash() {
    let two_blocks: &[u8] =
        b"abcdefghbcdefghicdefghijdefghijkefghijklfghijklmghijklmnhijklmnoijklmnopjklmnopqklmnopqrlmnopqrs\
        mnopqrstnopqrstu";
    let million = vec![b'a'; 1_000_000];
    let cases: [(&[u8], &str); 5] = [
        (b"", "e3b0c44298fc1c149afbf4c8996fb92427ae41e4649b934ca495991b7852b855"),
        (b"abc", "ba7816bf8f01cfea414140de5dae2223b00361a396177a9cb410ff61f20015ad"),
        (
            b"abcdbcdecdefdefgefghfghighijhijkijkljklmklmnlmnomnopnopq",
            "248d6a61d20638b8e5c026930c3e6039a33ce45964ff2167f6ecedd419db06c1",
        ),
        (two_blocks, "cf5b16a778af8380036ce59e7b0492370b249b11e8f07a51afac45037afee9d1"),
        (&million, "cdc76e5c9914fb9281a1c7e284d73e67f1809a48a497200e046d39ccc7112cd0"),
    ];
    for (message, digest) in cases {
        assert_eq!(sha256(message).to_vec(), hex(digest));
    }
}

/// Messages of the bytes 3, 10, 17 and so on.
#[test]
fn edges_of_the_padding() {
    let cases = [
        (0, "e3b0c44298fc1c149afbf4c8996fb92427ae41e4649b934ca495991b7852b855"),
        (1, "084fed08b978af4d7d196a7446a86b58009e636b611db16211b65a9aadff29c5"),
        (55, "e7313d333c272e639f790978283f9eb392e843d0f29b7016828bb1daa4aac70b"),
        (56, "4324d65f3c103567f5589c710bc08f8523f929a9272e3af36fc968e52abc6c27"),
        (57, "35df609437dcfea3279283ab79fd554e2bf78f8f7ae2de532d8ee300b09e8f73"),
        (63, "81c80242132f230c3bd41b3e63bbcff16107339549214a99614ff26664625055"),
        (64, "39e3d7b6b5d075d37d053ad89b24b41bef4f3c29760c84447cab3f3be1882241"),
        (65, "aacca6ff74fdbb296d165a45cecfa04e5127bc008770fbbdd48006f2d2fae95e"),
        (119, "9ce7368e4daf32341631b492e80359dc9f594b48453cd0dd5bf0b19279cc177e"),
        (120, "7836b787757e95e58b3ca5aec90b1b004e8deba1e50e9675af9cabf1a13a04b5"),
        (127, "a8d23e75d936f303d248888d9b165ee543f4cbafcad3c9dd2a79bd84faa11d07"),
        (128, "d2742f1f4ac6bb7ca2b239ee18402ba8b3f9f8e652d2a72973c2b9ba11c08cf6"),
        (129, "307f8fc2c1622b92762e818d39a185d4d667ad49a4b07ceae1f4afa008a93ec4"),
    ];
    for (length, digest) in cases {
        let message: Vec<u8> = (0..length).map(|place| (place * 7 + 3) as u8).collect();
        assert_eq!(sha256(&message).to_vec(), hex(digest), "{length} bytes");
    }
}

/// RFC 4231, test cases 1 to 7; the fifth gives only the first 16 bytes.
#[test]
fn rfc_4231() {
    let counting: Vec<u8> = (1..=25).collect();
    let larger: &[u8] =
        b"This is a test using a larger than block-size key and a larger than block-size data. The key \
        needs to be hashed before being used by the HMAC algorithm.";
    let cases: [(&[u8], &[u8], &str); 7] = [
        (&[0x0b; 20], b"Hi There", "b0344c61d8db38535ca8afceaf0bf12b881dc200c9833da726e9376c2e32cff7"),
        (b"Jefe", b"what do ya want for nothing?", "5bdcc146bf60754e6a042426089575c75a003f089d2739839dec58b964ec3843"),
        (&[0xaa; 20], &[0xdd; 50], "773ea91e36800e46854db8ebd09181a72959098b3ef8c122d9635514ced565fe"),
        (&counting, &[0xcd; 50], "82558a389a443c0ea4cc819899f2083a85f0faa3e578f8077a2e3ff46729665b"),
        (&[0x0c; 20], b"Test With Truncation", "a3b6167473100ee06e0c796c2955552b"),
        (
            &[0xaa; 131],
            b"Test Using Larger Than Block-Size Key - Hash Key First",
            "60e431591ee0b67f0d8a26aacbf5b77f8e0bc6213728c5140546040f0ee37f54",
        ),
        (&[0xaa; 131], larger, "9b09ffa71b942fcb27635fbcd5b0e944bfdc63644f0713938a7f51535c3a35e2"),
    ];
    for (key, message, expected) in cases {
        let expected = hex(expected);
        assert_eq!(hmac(key, message)[..expected.len()], expected);
        assert_eq!(tag(key, message), hmac(key, message)[..TAG_LENGTH]);
    }
}

/// A key of a block stands as it is, a longer one is hashed; a shorter one is filled with zeros.
#[test]
fn keys_of_any_length() {
    let message = b"route";
    assert_eq!(hmac(&[], message), hmac(&[0; 64], message));
    assert_eq!(hmac(&[5; 65], message), hmac(&sha256(&[5; 65]), message));
    assert_ne!(hmac(&[5; 64], message), hmac(&sha256(&[5; 64]), message));
}

#[test]
fn every_bit_of_a_tag_is_compared() {
    let (key, message) = ([9; 32], b"some message");
    let good = tag(&key, message);
    assert!(matches(&key, message, &good));
    for bit in 0..8 * TAG_LENGTH {
        let mut bad = good;
        bad[bit / 8] ^= 1 << (bit % 8);
        assert!(!matches(&key, message, &bad), "bit {bit}");
    }
    assert!(!matches(&key, message, &good[..TAG_LENGTH - 1]));
    assert!(!matches(&key, message, &[]));
}
