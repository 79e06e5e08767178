//! SHA-256 (FIPS 180-4), HMAC (FIPS 198-1), and document 01's tag: the first 16 bytes of an HMAC with SHA-256.

/// Bytes in a block of the hash.
const BLOCK: usize = 64;
/// Bytes in a tag.
pub const TAG_LENGTH: usize = 16;

/// FIPS 180-4, 5.3.3: the initial hash value.
const INITIAL: [u32; 8] =
    [0x6a09e667, 0xbb67ae85, 0x3c6ef372, 0xa54ff53a, 0x510e527f, 0x9b05688c, 0x1f83d9ab, 0x5be0cd19];

/// FIPS 180-4, 4.2.2: the constants of the rounds, sixteen in a row.
const K: [[u32; 16]; 4] = [
    [
        0x428a2f98, 0x71374491, 0xb5c0fbcf, 0xe9b5dba5, 0x3956c25b, 0x59f111f1, 0x923f82a4, 0xab1c5ed5, 0xd807aa98,
        0x12835b01, 0x243185be, 0x550c7dc3, 0x72be5d74, 0x80deb1fe, 0x9bdc06a7, 0xc19bf174,
    ],
    [
        0xe49b69c1, 0xefbe4786, 0x0fc19dc6, 0x240ca1cc, 0x2de92c6f, 0x4a7484aa, 0x5cb0a9dc, 0x76f988da, 0x983e5152,
        0xa831c66d, 0xb00327c8, 0xbf597fc7, 0xc6e00bf3, 0xd5a79147, 0x06ca6351, 0x14292967,
    ],
    [
        0x27b70a85, 0x2e1b2138, 0x4d2c6dfc, 0x53380d13, 0x650a7354, 0x766a0abb, 0x81c2c92e, 0x92722c85, 0xa2bfe8a1,
        0xa81a664b, 0xc24b8b70, 0xc76c51a3, 0xd192e819, 0xd6990624, 0xf40e3585, 0x106aa070,
    ],
    [
        0x19a4c116, 0x1e376c08, 0x2748774c, 0x34b0bcb5, 0x391c0cb3, 0x4ed8aa4a, 0x5b9cca4f, 0x682e6ff3, 0x748f82ee,
        0x78a5636f, 0x84c87814, 0x8cc70208, 0x90befffa, 0xa4506ceb, 0xbef9a3f7, 0xc67178f2,
    ],
];

/// The SHA-256 hash of a message (FIPS 180-4, 6.2).
pub fn sha256(message: &[u8]) -> [u8; 32] {
    hash_from(INITIAL, 0, message)
}

/// The HMAC of a message with SHA-256 (FIPS 198-1, 4), for a key of any length.
pub fn hmac(key: &[u8], message: &[u8]) -> [u8; 32] {
    let key = key_block(key);
    let inner = hash_from(after_pad(&key, 0x36), BLOCK as u64, message);
    hash_from(after_pad(&key, 0x5c), BLOCK as u64, &inner)
}

/// The tag of a message: the first 16 bytes of its HMAC.
pub fn tag(key: &[u8], message: &[u8]) -> [u8; TAG_LENGTH] {
    let whole = hmac(key, message);
    let mut tag = [0; TAG_LENGTH];
    tag.copy_from_slice(&whole[..TAG_LENGTH]);
    tag
}

/// Does a message carry its tag? Every byte is compared, whatever the others gave.
pub fn matches(key: &[u8], message: &[u8], carried: &[u8]) -> bool {
    let due = tag(key, message);
    let differing = due.iter().zip(carried).fold(0, |bits, (a, b)| bits | (a ^ b));
    carried.len() == TAG_LENGTH && differing == 0
}

/// FIPS 198-1, steps 1 to 3: the key as one block, hashed first where it is longer.
fn key_block(key: &[u8]) -> [u8; BLOCK] {
    let mut block = [0; BLOCK];
    if key.len() <= BLOCK {
        block[..key.len()].copy_from_slice(key);
    } else {
        block[..32].copy_from_slice(&sha256(key));
    }
    block
}

/// The hash value after one block, the key with a pad byte added to each of its bytes.
fn after_pad(key: &[u8; BLOCK], pad: u8) -> [u32; 8] {
    let mut state = INITIAL;
    compress(&mut state, &key.map(|byte| byte ^ pad));
    state
}

/// Goes on hashing from a hash value that `before` bytes, a number of whole blocks, have led to; then pads (5.1.1).
fn hash_from(mut state: [u32; 8], before: u64, message: &[u8]) -> [u8; 32] {
    let (blocks, rest) = message.as_chunks::<BLOCK>();
    for block in blocks {
        compress(&mut state, block);
    }
    let bits = before.wrapping_add(message.len() as u64).wrapping_mul(8);
    let mut last = [0; BLOCK];
    last[..rest.len()].copy_from_slice(rest);
    last[rest.len()] = 0x80;
    if rest.len() >= BLOCK - 8 {
        compress(&mut state, &last);
        last = [0; BLOCK];
    }
    last[BLOCK - 8..].copy_from_slice(&bits.to_be_bytes());
    compress(&mut state, &last);
    let mut digest = [0; 32];
    for (bytes, word) in digest.chunks_exact_mut(4).zip(state) {
        bytes.copy_from_slice(&word.to_be_bytes());
    }
    digest
}

/// One round (6.2.2, step 3), with the eight variables in turning roles: only the fourth and the eighth change.
macro_rules! round {
    ($a:ident $b:ident $c:ident $d:ident $e:ident $f:ident $g:ident $h:ident, $k:expr, $w:expr) => {
        let sum1 = $e.rotate_right(6) ^ $e.rotate_right(11) ^ $e.rotate_right(25);
        let choice = $g ^ ($e & ($f ^ $g));
        let t1 = $h.wrapping_add($k).wrapping_add($w).wrapping_add(choice).wrapping_add(sum1);
        let sum0 = $a.rotate_right(2) ^ $a.rotate_right(13) ^ $a.rotate_right(22);
        let majority = ($a & $b) ^ ($c & ($a ^ $b));
        $d = $d.wrapping_add(t1);
        $h = t1.wrapping_add(sum0).wrapping_add(majority);
    };
}

/// Sixteen rounds, with the word of each from an expression in its place.
macro_rules! sixteen_rounds {
    ($a:ident $b:ident $c:ident $d:ident $e:ident $f:ident $g:ident $h:ident, $k:expr, $word:expr) => {
        round!($a $b $c $d $e $f $g $h, $k[0], $word(0));
        round!($h $a $b $c $d $e $f $g, $k[1], $word(1));
        round!($g $h $a $b $c $d $e $f, $k[2], $word(2));
        round!($f $g $h $a $b $c $d $e, $k[3], $word(3));
        round!($e $f $g $h $a $b $c $d, $k[4], $word(4));
        round!($d $e $f $g $h $a $b $c, $k[5], $word(5));
        round!($c $d $e $f $g $h $a $b, $k[6], $word(6));
        round!($b $c $d $e $f $g $h $a, $k[7], $word(7));
        round!($a $b $c $d $e $f $g $h, $k[8], $word(8));
        round!($h $a $b $c $d $e $f $g, $k[9], $word(9));
        round!($g $h $a $b $c $d $e $f, $k[10], $word(10));
        round!($f $g $h $a $b $c $d $e, $k[11], $word(11));
        round!($e $f $g $h $a $b $c $d, $k[12], $word(12));
        round!($d $e $f $g $h $a $b $c, $k[13], $word(13));
        round!($c $d $e $f $g $h $a $b, $k[14], $word(14));
        round!($b $c $d $e $f $g $h $a, $k[15], $word(15));
    };
}

/// Takes one block into the hash value (6.2.2).
fn compress(state: &mut [u32; 8], block: &[u8; BLOCK]) {
    let mut w = [0u32; 16];
    for (word, bytes) in w.iter_mut().zip(block.as_chunks::<4>().0) {
        *word = u32::from_be_bytes(*bytes);
    }
    let [mut a, mut b, mut c, mut d, mut e, mut f, mut g, mut h] = *state;
    let [first, later @ ..] = &K;
    sixteen_rounds!(a b c d e f g h, first, |t: usize| w[t]);
    for k in later {
        sixteen_rounds!(a b c d e f g h, k, |t| next_word(&mut w, t));
    }
    for (word, added) in state.iter_mut().zip([a, b, c, d, e, f, g, h]) {
        *word = word.wrapping_add(added);
    }
}

/// The next word of the message schedule (6.2.2, step 1), in the place of the one sixteen before.
#[inline(always)]
fn next_word(w: &mut [u32; 16], t: usize) -> u32 {
    let (near, far) = (w[(t + 14) % 16], w[(t + 1) % 16]);
    let sigma1 = near.rotate_right(17) ^ near.rotate_right(19) ^ (near >> 10);
    let sigma0 = far.rotate_right(7) ^ far.rotate_right(18) ^ (far >> 3);
    w[t] = w[t].wrapping_add(sigma0).wrapping_add(w[(t + 9) % 16]).wrapping_add(sigma1);
    w[t]
}
