//! Digest and cipher in megabytes per second.

use super::{beside, beside_head, head, openssl, rounded, row, time, Side, RUNS};
use crate::store::Store;
use std::hint::black_box;

/// How many bytes one run goes through.
const BYTES: usize = 2 << 20;

type Work = fn(&dyn Store, &mut [u8]);

fn digest(store: &dyn Store, buffer: &mut [u8]) {
    let mut out = [0; 32];
    store.sha256(black_box(buffer), &mut out);
    black_box(out);
}

fn cipher(store: &dyn Store, buffer: &mut [u8]) {
    store.chacha20(&[7; 32], &[9; 12], black_box(buffer));
}

pub fn run(sides: &[Side]) {
    println!("\nDigest and cipher, MB/s, best of {RUNS} runs\n");
    let mut cells = vec!["work".to_string()];
    cells.extend(beside_head(sides, "MB/s"));
    cells.push("OpenSSL MB/s".to_string());
    head(&cells);
    let works: [(&str, &str, Work); 2] = [
        ("SHA-256", "sha256", digest),
        ("ChaCha20", "chacha20", cipher),
    ];
    for (name, algorithm, work) in works {
        for (length, text) in [(8 << 10, "8 KB"), (1 << 20, "1 MB")] {
            let mut cells = vec![format!("{name}, {text}")];
            cells.extend(beside(&speeds(sides, work, length)));
            let openssl = openssl::speed(algorithm, length);
            cells.push(openssl.map_or("-".to_string(), rounded));
            row(&cells);
        }
    }
}

/// The sides take turns, so that a disturbance meets all of them.
fn speeds(sides: &[Side], work: Work, length: usize) -> Vec<f64> {
    let mut buffer = vec![0x5a; length];
    let mut best = vec![0.0_f64; sides.len()];
    for _ in 0..RUNS {
        for (best, (_, store)) in best.iter_mut().zip(sides) {
            let taken = time(|| {
                for _ in 0..BYTES / length {
                    work(*store, &mut buffer);
                }
            });
            *best = best.max(BYTES as f64 / 1e6 / taken.as_secs_f64());
        }
    }
    best
}
