//! Times the exported reader and label lookup against the independent program's, side by side: nanoseconds for one
//! request, the best of many rounds.
use compare::build::{sample, Draft};
use compare::random::{sized, windows_of, Random};
use compare::MOST_BYTES;
use std::hint::black_box;
use std::time::Instant;

const ROUNDS: usize = 4_000;

/// Nanoseconds that one call takes in this round.
fn round<T>(passes: usize, call: impl Fn(&[u8]) -> T, request: &[u8]) -> f64 {
    let start = Instant::now();
    for _ in 0..passes {
        black_box(call(black_box(request)));
    }
    start.elapsed().as_nanos() as f64 / passes as f64
}

/// Times both on one request and prints a line.
fn compete<T, U>(
    name: &str,
    request: &[u8],
    proved: impl Fn(&[u8]) -> T,
    plain: impl Fn(&[u8]) -> U,
) {
    // Rounds of some tens of microseconds, whatever the length.
    let passes = (100_000 / request.len()).clamp(10, 200);
    let (mut ours, mut theirs) = (f64::MAX, f64::MAX);
    for _ in 0..ROUNDS {
        ours = ours.min(round(passes, &proved, request));
        theirs = theirs.min(round(passes, &plain, request));
    }
    let (bytes, ratio) = (request.len(), ours / theirs);
    println!("{name}, {bytes} bytes: proved {ours:.0} ns, plain {theirs:.0} ns, ratio {ratio:.2}");
}

/// The same with a minute where it has none.
fn without_zeros(mut draft: Draft) -> Draft {
    for time in draft.tasks.iter_mut().flat_map(|task| &mut task.1) {
        *time = (*time).max(1);
    }
    draft
}

/// The full request, with a deadline; every processor is a `P`, or every one a `Q`, and none has windows. There is no `K`.
fn full(minimum: Option<u16>) -> Draft {
    let mut draft = without_zeros(sized(&mut Random(0x5eed_4ead_be9c_0001), 64, 16, 512));
    (draft.deadline, draft.share) = (Some(200_000), None);
    draft.with_minimums(&[minimum; 16]).with_windows(&[])
}

/// The same with four windows for each processor.
fn with_windows(draft: Draft) -> Draft {
    let mut random = Random(0x5eed_4ead_be9c_0003);
    let four = |j| windows_of(&mut random, j, 4, (0, 20_000));
    draft.with_windows(&(0..16).flat_map(four).collect::<Vec<_>>())
}

/// 64 tasks with labels of eight bytes, and as little as can be besides.
fn labels() -> Draft {
    let mut draft = without_zeros(sized(&mut Random(0x5eed_4ead_be9c_0002), 64, 1, 0));
    (draft.deadline, draft.share) = (None, None);
    draft.minimums = vec![None];
    draft.windows = Vec::new();
    for (label, _) in &mut draft.tasks {
        while label.len() < 8 {
            label.push('x');
        }
    }
    draft
}

fn main() {
    let longest = with_windows(full(Some(10_000))).with_share(1_000).bytes();
    let (full, minimums) = (full(None).bytes(), full(Some(10_000)).bytes());
    let (labels, small) = (labels().bytes(), sample(28).bytes());
    let lengths = [full.len(), minimums.len(), longest.len(), small.len()];
    assert_eq!(lengths, [MOST_BYTES - 675, MOST_BYTES - 643, MOST_BYTES, 84]);
    for request in [&full, &minimums, &longest, &labels, &small] {
        assert!(zabgurin::read(request).number == 0 && compare::read(request).is_ok());
    }
    compete("read the full request", &full, zabgurin::read, compare::read);
    compete("read it with 16 minimums", &minimums, zabgurin::read, compare::read);
    compete("read it with these, 64 windows and a share", &longest, zabgurin::read, compare::read);
    compete("read one of labels", &labels, zabgurin::read, compare::read);
    compete("read S(28)", &small, zabgurin::read, compare::read);
    let last = |label: fn(&[u8], usize) -> &[u8]| move |request: &[u8]| label(request, 63).len();
    compete("last label of the full request", &full, last(zabgurin::label), last(compare::label));
}
