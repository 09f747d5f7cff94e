//! Times the exported label check against the plain one, side by side: nanoseconds for 64 labels, the best of many rounds.
use against::plain;
use std::hint::black_box;
use std::time::Instant;

const LABELS: usize = 64;
const ROUNDS: usize = 4_000;
const PASSES: usize = 50;

/// 64 fields of eight bytes: labels of `len` bytes that walk through the list, then spaces.
fn fields(len: usize) -> Vec<u8> {
    let list: Vec<u8> = (0..=255).filter(|&b| plain::listed(b)).collect();
    (0..LABELS)
        .flat_map(|label| {
            let list = &list;
            (0..8).map(
                move |k| {
                    if k < len {
                        list[(label * 29 + k * 13) % list.len()]
                    } else {
                        b' '
                    }
                },
            )
        })
        .collect()
}

/// Nanoseconds that one pass over the 64 labels takes in this round.
fn round(check: impl Fn(&[u8], usize) -> usize, bytes: &[u8]) -> f64 {
    let start = Instant::now();
    for _ in 0..PASSES {
        for label in 0..LABELS {
            black_box(check(black_box(bytes), black_box(8 * label)));
        }
    }
    start.elapsed().as_nanos() as f64 / PASSES as f64
}

fn main() {
    use zabgurin::label_len;
    for len in [8, 4] {
        let bytes = fields(len);
        let (mut ours, mut theirs) = (f64::MAX, f64::MAX);
        for _ in 0..ROUNDS {
            ours = ours.min(round(label_len, &bytes));
            theirs = theirs.min(round(plain::label_len, &bytes));
        }
        println!(
            "64 labels of {len} bytes: proved {ours:.0} ns, plain {theirs:.0} ns, ratio {:.2}",
            ours / theirs
        );
    }
}
