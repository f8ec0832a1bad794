//! ChaCha20 as RFC 8439 gives it.

const WORDS: [u32; 4] = [0x61707865, 0x3320646e, 0x79622d32, 0x6b206574];

/// Adds the keystream that begins at block `counter` to `text`.
pub fn chacha20(key: &[u8; 32], nonce: &[u8; 12], counter: u32, text: &mut [u8]) {
    let mut state = start(key, nonce, counter);
    let mut blocks = text.chunks_exact_mut(64);
    for block in &mut blocks {
        let stream = stream(&state);
        for (part, word) in block.chunks_exact_mut(4).zip(stream) {
            let sum = u32::from_le_bytes([part[0], part[1], part[2], part[3]]) ^ word;
            part.copy_from_slice(&sum.to_le_bytes());
        }
        state[12] = state[12].wrapping_add(1);
    }
    let rest = blocks.into_remainder();
    if !rest.is_empty() {
        for (byte, pad) in rest.iter_mut().zip(bytes(&stream(&state))) {
            *byte ^= pad;
        }
    }
}

/// One block of the keystream (RFC 8439, 2.3).
pub fn block(key: &[u8; 32], nonce: &[u8; 12], counter: u32) -> [u8; 64] {
    bytes(&stream(&start(key, nonce, counter)))
}

fn start(key: &[u8; 32], nonce: &[u8; 12], counter: u32) -> [u32; 16] {
    let mut state = [0; 16];
    state[..4].copy_from_slice(&WORDS);
    read_words(&mut state[4..12], key);
    state[12] = counter;
    read_words(&mut state[13..], nonce);
    state
}

fn read_words(words: &mut [u32], bytes: &[u8]) {
    for (word, part) in words.iter_mut().zip(bytes.chunks_exact(4)) {
        *word = u32::from_le_bytes([part[0], part[1], part[2], part[3]]);
    }
}

fn bytes(words: &[u32; 16]) -> [u8; 64] {
    let mut bytes = [0; 64];
    for (part, word) in bytes.chunks_exact_mut(4).zip(words) {
        part.copy_from_slice(&word.to_le_bytes());
    }
    bytes
}

#[inline(always)]
fn quarter(x: &mut [u32; 16], a: usize, b: usize, c: usize, d: usize) {
    x[a] = x[a].wrapping_add(x[b]);
    x[d] = (x[d] ^ x[a]).rotate_left(16);
    x[c] = x[c].wrapping_add(x[d]);
    x[b] = (x[b] ^ x[c]).rotate_left(12);
    x[a] = x[a].wrapping_add(x[b]);
    x[d] = (x[d] ^ x[a]).rotate_left(8);
    x[c] = x[c].wrapping_add(x[d]);
    x[b] = (x[b] ^ x[c]).rotate_left(7);
}

fn stream(state: &[u32; 16]) -> [u32; 16] {
    let mut x = *state;
    for _ in 0..10 {
        quarter(&mut x, 0, 4, 8, 12);
        quarter(&mut x, 1, 5, 9, 13);
        quarter(&mut x, 2, 6, 10, 14);
        quarter(&mut x, 3, 7, 11, 15);
        quarter(&mut x, 0, 5, 10, 15);
        quarter(&mut x, 1, 6, 11, 12);
        quarter(&mut x, 2, 7, 8, 13);
        quarter(&mut x, 3, 4, 9, 14);
    }
    for (word, first) in x.iter_mut().zip(state) {
        *word = word.wrapping_add(*first);
    }
    x
}
