//! SHA-256 as FIPS 180-4 gives it, over one whole message.

const ROUND: [u32; 64] = [
    0x428a2f98, 0x71374491, 0xb5c0fbcf, 0xe9b5dba5, 0x3956c25b, 0x59f111f1, 0x923f82a4, 0xab1c5ed5,
    0xd807aa98, 0x12835b01, 0x243185be, 0x550c7dc3, 0x72be5d74, 0x80deb1fe, 0x9bdc06a7, 0xc19bf174,
    0xe49b69c1, 0xefbe4786, 0x0fc19dc6, 0x240ca1cc, 0x2de92c6f, 0x4a7484aa, 0x5cb0a9dc, 0x76f988da,
    0x983e5152, 0xa831c66d, 0xb00327c8, 0xbf597fc7, 0xc6e00bf3, 0xd5a79147, 0x06ca6351, 0x14292967,
    0x27b70a85, 0x2e1b2138, 0x4d2c6dfc, 0x53380d13, 0x650a7354, 0x766a0abb, 0x81c2c92e, 0x92722c85,
    0xa2bfe8a1, 0xa81a664b, 0xc24b8b70, 0xc76c51a3, 0xd192e819, 0xd6990624, 0xf40e3585, 0x106aa070,
    0x19a4c116, 0x1e376c08, 0x2748774c, 0x34b0bcb5, 0x391c0cb3, 0x4ed8aa4a, 0x5b9cca4f, 0x682e6ff3,
    0x748f82ee, 0x78a5636f, 0x84c87814, 0x8cc70208, 0x90befffa, 0xa4506ceb, 0xbef9a3f7, 0xc67178f2,
];

const START: [u32; 8] = [
    0x6a09e667, 0xbb67ae85, 0x3c6ef372, 0xa54ff53a, 0x510e527f, 0x9b05688c, 0x1f83d9ab, 0x5be0cd19,
];

/// The digest of `message`.
pub fn sha256(message: &[u8]) -> [u8; 32] {
    let mut state = START;
    let mut blocks = message.chunks_exact(64);
    for block in &mut blocks {
        compress(&mut state, block);
    }
    let (tail, used) = padded(blocks.remainder(), message.len());
    for block in tail[..used].chunks_exact(64) {
        compress(&mut state, block);
    }
    let mut digest = [0; 32];
    for (part, word) in digest.chunks_exact_mut(4).zip(state) {
        part.copy_from_slice(&word.to_be_bytes());
    }
    digest
}

/// The last one or two blocks: what is left of the message, one set bit,
/// zeros, and the length in bits.
fn padded(rest: &[u8], length: usize) -> ([u8; 128], usize) {
    let mut tail = [0; 128];
    tail[..rest.len()].copy_from_slice(rest);
    tail[rest.len()] = 0x80;
    let used = if rest.len() < 56 { 64 } else { 128 };
    let bits = (length as u64).wrapping_mul(8);
    tail[used - 8..used].copy_from_slice(&bits.to_be_bytes());
    (tail, used)
}

fn words(block: &[u8]) -> [u32; 16] {
    let mut words = [0; 16];
    for (word, part) in words.iter_mut().zip(block.chunks_exact(4)) {
        *word = u32::from_be_bytes([part[0], part[1], part[2], part[3]]);
    }
    words
}

/// The word of the schedule sixteen places after word `t`, put in its place:
/// a word depends on none that lies further back.
#[inline(always)]
fn next_word(w: &mut [u32; 16], t: usize) -> u32 {
    let (early, late) = (w[(t + 1) % 16], w[(t + 14) % 16]);
    let s0 = early.rotate_right(7) ^ early.rotate_right(18) ^ (early >> 3);
    let s1 = late.rotate_right(17) ^ late.rotate_right(19) ^ (late >> 10);
    w[t] = w[t]
        .wrapping_add(s0)
        .wrapping_add(w[(t + 9) % 16])
        .wrapping_add(s1);
    w[t]
}

/// One round. The caller turns the eight names instead of moving eight values.
macro_rules! round {
    ($a:ident $b:ident $c:ident $d:ident $e:ident $f:ident $g:ident $h:ident, $input:expr) => {
        let choice = $g ^ ($e & ($f ^ $g));
        let s1 = $e.rotate_right(6) ^ $e.rotate_right(11) ^ $e.rotate_right(25);
        let t1 = $h
            .wrapping_add($input)
            .wrapping_add(choice)
            .wrapping_add(s1);
        let majority = ($a & $b) ^ ($c & ($a ^ $b));
        let s0 = $a.rotate_right(2) ^ $a.rotate_right(13) ^ $a.rotate_right(22);
        $d = $d.wrapping_add(t1);
        $h = t1.wrapping_add(majority).wrapping_add(s0);
    };
}

/// Sixteen rounds, with word and constant from `input`.
#[inline(always)]
fn rounds(state: &mut [u32; 8], mut input: impl FnMut(usize) -> u32) {
    let [mut a, mut b, mut c, mut d, mut e, mut f, mut g, mut h] = *state;
    for t in [0, 8] {
        round!(a b c d e f g h, input(t));
        round!(h a b c d e f g, input(t + 1));
        round!(g h a b c d e f, input(t + 2));
        round!(f g h a b c d e, input(t + 3));
        round!(e f g h a b c d, input(t + 4));
        round!(d e f g h a b c, input(t + 5));
        round!(c d e f g h a b, input(t + 6));
        round!(b c d e f g h a, input(t + 7));
    }
    *state = [a, b, c, d, e, f, g, h];
}

fn compress(state: &mut [u32; 8], block: &[u8]) {
    let mut w = words(block);
    let mut turned = *state;
    rounds(&mut turned, |t| w[t].wrapping_add(ROUND[t]));
    for k in ROUND[16..].chunks_exact(16) {
        rounds(&mut turned, |t| next_word(&mut w, t).wrapping_add(k[t]));
    }
    for (word, turned) in state.iter_mut().zip(turned) {
        *word = word.wrapping_add(turned);
    }
}
