//! The cases of document 01 and of A4, A5 and A9 of document 02, and both edges of
//! each range; those of A7 are in `range.rs`, those of A8 in `why.rs`. Of document 01's cases one is no longer as it stands there: 0 minutes,
//! which it refuses with 4, pass since A9. Offsets in S(28): H 0, P 7 10, T W W
//! 13 23 28, 33 43 48, 53 63 68, E 73 78, Z 83, end 84.

mod common;

use compare::build::{d, e, h, k, m, p, q, sample, t, w, z, Draft};
use compare::{label, order, plan, ranks, read, samples, text};
use compare::{Answer, Refusal, Row, Window, MOST_BYTES};

const H: usize = 7;
const D: usize = 5;
const K: usize = 3;
const P: usize = 3;
const Q: usize = 5;
const M: usize = 10;
const T: usize = 10;
const W: usize = 5;
const E: usize = 5;

/// A row content that no plan writes.
const KEPT: Row = Row { processor: 91, start: 92, finish: 93, cost: 94 };

fn planned(n: u64, length: u64, cost: u64, left: u64) -> Answer {
    Answer::Planned { n, length, cost, left }
}

fn refused(number: u64, place: usize) -> Answer {
    Answer::Refused { number, place: place as u64 }
}

/// The answer with `lent` rows lent, and those rows: (processor, start,
/// finish, cost). Every call checks that rows from n on are kept, and on a
/// refusal all of them.
fn answer_with(lent: usize, request: &[u8]) -> (Answer, Vec<(u64, u64, u64, u64)>) {
    let mut rows = vec![KEPT; lent];
    let answer = plan(request, &mut rows);
    let n = match answer {
        Answer::Planned { n, .. } => n as usize,
        Answer::Refused { .. } => 0,
    };
    assert!(rows[n..].iter().all(|row| *row == KEPT));
    assert!(rows[..n].iter().all(|row| *row != KEPT));
    (answer, rows[..n].iter().map(|r| (r.processor, r.start, r.finish, r.cost)).collect())
}

fn answer(request: &[u8]) -> Answer {
    answer_with(70, request).0
}

/// Passes reading, by `read` and `plan` alike.
fn passes(request: &[u8]) {
    assert!(read(request).is_ok());
    assert!(!matches!(answer(request), Answer::Refused { number: 1..=6, .. }));
}

/// Refused in reading, by `read`, `plan`, `text` and `label` alike.
fn refuses(request: &[u8], number: u64, place: usize) {
    assert_eq!(read(request), Err(Refusal { number, place: place as u64 }));
    assert_eq!(answer(request), refused(number, place));
    assert_eq!(text(request), format!("no {number} {place}\n").into_bytes());
    let part = label(request, 0);
    assert!(part.is_empty() && part.as_ptr() == request.as_ptr());
}

/// Passes reading or is refused with this number and place.
fn passes_only_if(good: bool, request: &[u8], number: u64, place: usize) {
    if good {
        passes(request);
    } else {
        refuses(request, number, place);
    }
}

/// S(28) with its record number k changed to another one. S(28) has the
/// records H, P P, T W W, T W W, T W W, E E, Z, numbered from 0.
fn with_record(k: usize, record: Vec<u8>) -> Vec<u8> {
    let mut records = sample(28).records();
    records[k] = record;
    records.concat()
}

/// n tasks, m processors, all minutes and prices 1, no edge; good for 1..=64, 1..=16.
fn even(n: usize, m: usize) -> Draft {
    Draft::new(1_000, &vec![1; m], &vec![&vec![1; m][..]; n], &[])
}

/// The first `count` pairs (i, k) with i < k < 64 in rising order, transfer 0.
fn forward_edges(count: usize) -> Vec<(u8, u8, u16)> {
    (0..64).flat_map(|i| (i + 1..64).map(move |k| (i, k, 0))).take(count).collect()
}

/// Every processor down until 20,000, by four windows each that touch.
fn all_down() -> Vec<(u8, u32, u32)> {
    let of = |j| (0..4).map(move |k| (j, 5_000 * k, 5_000 * (k + 1)));
    (0..16).flat_map(of).collect()
}

/// Every count, field and label as large as it may be without a `Q` and an `M`.
fn largest() -> Draft {
    Draft {
        deadline: Some(200_000),
        tasks: (0..64).map(|i| (format!("label-{i:02}"), vec![2_000; 16])).collect(),
        edges: forward_edges(512).iter().map(|&(i, k, _)| (i, k, 1_000)).collect(),
        ..Draft::new(20_000_000, &[100; 16], &[], &[])
    }
}

// ---- The sample ----

#[test]
fn s28_prints_the_sample() {
    let request = sample(28).bytes();
    assert_eq!(request.len(), 84);
    assert_eq!(request.len(), H + 2 * P + 3 * (T + 2 * W) + 2 * E + 1);
    assert_eq!(ranks(&read(&request).unwrap()), Some(vec![30, 12, 8]));
    let expected = "plan 3 14 26 2\nprep 1 0 4 12\nleft 0 6 14 8\nright 1 4 6 6\n";
    assert_eq!(text(&request), expected.as_bytes());
    let rows = vec![(1, 0, 4, 12), (0, 6, 14, 8), (1, 4, 6, 6)];
    assert_eq!(answer_with(3, &request), (planned(3, 14, 26, 2), rows));
}

#[test]
fn s28_byte_for_byte() {
    let expected = b"H\x03\x02\x1c\0\0\0P\0\x01P\x01\x03\
        T\0prep    W\0\0\x0a\0W\0\x01\x04\0T\x01left    W\x01\0\x08\0W\x01\x01\x04\0\
        T\x02right   W\x02\0\x06\0W\x02\x01\x02\0E\0\x01\x02\0E\0\x02\x03\0Z";
    assert_eq!(sample(28).bytes(), expected);
}

#[test]
fn s24_spends_all() {
    let rows = vec![(0, 0, 10, 10), (0, 10, 18, 8), (1, 13, 15, 6)];
    assert_eq!(answer_with(3, &sample(24).bytes()), (planned(3, 18, 24, 0), rows));
}

#[test]
fn s23_is_too_dear() {
    assert_eq!(answer(&sample(23).bytes()), refused(9, 24));
    assert_eq!(text(&sample(23).bytes()), b"no 9 24\n");
}

#[test]
fn s100_takes_the_fast_processor() {
    let rows = vec![(1, 0, 4, 12), (1, 4, 8, 12), (1, 8, 10, 6)];
    assert_eq!(answer_with(3, &sample(100).bytes()), (planned(3, 10, 30, 70), rows));
}

#[test]
fn s28_multiplied() {
    let draft = sample(28).times(3, 2);
    assert_eq!(draft.budget, 168);
    let rows = vec![(1, 0, 12, 72), (0, 18, 42, 48), (1, 12, 18, 36)];
    assert_eq!(answer_with(3, &draft.bytes()), (planned(3, 42, 156, 12), rows));
}

#[test]
fn one_task_for_nothing() {
    let request = Draft::new(0, &[0], &[&[1]], &[]).bytes();
    assert_eq!(answer_with(1, &request), (planned(1, 1, 0, 0), vec![(0, 0, 1, 0)]));
    assert_eq!(text(&request), b"plan 1 1 0 0\nt0 0 0 1 0\n");
}

// ---- Refusals of the sample ----

#[test]
fn sample_cut_or_damaged() {
    let good = sample(28).bytes();
    refuses(b"", 1, 0);
    refuses(&good[..83], 1, 83);
    refuses(&good[..9], 1, 7);
    refuses(&[&good[..], b"Z"].concat(), 6, 84);
    refuses(&[&good[..], b"\0\0\0"].concat(), 6, 84);
    refuses(&[b"P", &good[1..]].concat(), 2, 0);
    refuses(&with_record(3, t(0, "pr;p")), 5, 13);
}

#[test]
fn sample_with_a_cycle() {
    let mut draft = sample(28);
    draft.edges.push((1, 0, 0));
    assert_eq!(answer(&draft.bytes()), refused(8, 0));
    assert_eq!(ranks(&read(&draft.bytes()).unwrap()), None);
}

#[test]
fn sample_with_too_few_rows() {
    let request = sample(28).bytes();
    assert_eq!(answer_with(2, &request).0, refused(7, 3));
    assert_eq!(answer_with(0, &request).0, refused(7, 3));
    assert_eq!(answer_with(3, &request).0, planned(3, 14, 26, 2));
}

#[test]
fn sample_with_a_deadline() {
    let deadline = |minutes| Draft { deadline: Some(minutes), ..sample(28) }.bytes();
    assert_eq!(answer(&deadline(13)), refused(11, 14));
    assert_eq!(answer(&deadline(14)), planned(3, 14, 26, 2));
    assert_eq!(text(&deadline(14)), text(&sample(28).bytes()));
}

// ---- Ranges ----

#[test]
fn tasks_1_to_64() {
    for (n, good) in [(0, false), (1, true), (64, true), (65, false), (255, false)] {
        let request = even(n, 2).bytes();
        passes_only_if(good, &request, 4, 0);
    }
}

#[test]
fn processors_1_to_16() {
    for (m, good) in [(0, false), (1, true), (16, true), (17, false), (255, false)] {
        let request = even(2, m.max(1)).bytes();
        let request = [&[b'H', 2, m as u8], &request[3..]].concat();
        passes_only_if(good, &request, 4, 0);
    }
}

#[test]
fn budget_up_to_20_000_000() {
    passes(&sample(0).bytes());
    passes(&sample(20_000_000).bytes());
    refuses(&sample(20_000_001).bytes(), 4, 0);
    refuses(&sample(u32::MAX).bytes(), 4, 0);
    // All four bytes count, the lowest first.
    assert_eq!(answer(&sample(0x01_02_03_04).bytes()), planned(3, 10, 30, 0x01_02_03_04 - 30));
}

#[test]
fn deadline_1_to_200_000() {
    let deadline = |minutes| Draft { deadline: Some(minutes), ..sample(28) }.bytes();
    refuses(&deadline(0), 4, H);
    passes(&deadline(1));
    passes(&deadline(200_000));
    refuses(&deadline(200_001), 4, H);
    refuses(&deadline(u32::MAX), 4, H);
}

#[test]
fn price_0_to_100() {
    passes(&with_record(1, p(0, 0)));
    passes(&with_record(1, p(0, 100)));
    refuses(&with_record(1, p(0, 101)), 4, 7);
    refuses(&with_record(2, p(1, 255)), 4, 10);
}

/// Document 01 has "minutes 1 and 2,000 pass, 0 and 2,001 are 4"; "0 minutes no
/// longer gives 4, and that case of 01 changes" (A9).
#[test]
fn minutes_0_to_2_000() {
    for (k, task, processor, at) in [(4, 0, 0, 23), (5, 0, 1, 28), (11, 2, 1, 68)] {
        passes(&with_record(k, w(task, processor, 0)));
        passes(&with_record(k, w(task, processor, 1)));
        passes(&with_record(k, w(task, processor, 2_000)));
        refuses(&with_record(k, w(task, processor, 2_001)), 4, at);
        refuses(&with_record(k, w(task, processor, u16::MAX)), 4, at);
    }
    // A task may be 0 on one processor and not on another, and on all.
    let minutes: [&[u16]; 3] = [&[0, 2_000], &[0, 0], &[7, 0]];
    let request = Draft::new(20_000_000, &[1, 3], &minutes, &[]).bytes();
    assert_eq!(read(&request).unwrap().minutes, [0, 2_000, 0, 0, 7, 0]);
}

#[test]
fn transfer_0_to_1_000() {
    passes(&with_record(12, e(0, 1, 0)));
    passes(&with_record(12, e(0, 1, 1_000)));
    refuses(&with_record(12, e(0, 1, 1_001)), 4, 73);
    refuses(&with_record(13, e(0, 2, u16::MAX)), 4, 78);
}

#[test]
fn edge_ends_below_n_and_unequal() {
    passes(&with_record(13, e(1, 2, 0)));
    passes(&with_record(13, e(2, 1, 0)));
    refuses(&with_record(13, e(0, 3, 0)), 4, 78);
    refuses(&with_record(13, e(3, 0, 0)), 4, 78);
    refuses(&with_record(13, e(1, 1, 0)), 4, 78);
    refuses(&with_record(12, e(0, 0, 0)), 4, 73);
    refuses(&with_record(13, e(255, 254, 0)), 4, 78);
}

#[test]
fn edges_up_to_512() {
    let before = H + 2 * P + 64 * (T + 2 * W) + 512 * E;
    let mut draft = even(64, 2);
    draft.edges = forward_edges(512);
    passes(&draft.bytes());
    assert!(matches!(answer(&draft.bytes()), Answer::Planned { .. }));

    draft.edges = forward_edges(513);
    refuses(&draft.bytes(), 4, before);
    // A 513th edge that is out of order as well is 4 before it is 3.
    draft.edges[512] = (0, 1, 0);
    refuses(&draft.bytes(), 4, before);
    // Its kind and its whole body come first.
    refuses(&draft.bytes()[..before + 4], 1, before);
    let mut other_kind = draft.bytes();
    other_kind[before] = b'W';
    refuses(&other_kind, 2, before);
}

#[test]
fn largest_good_request() {
    let request = largest().bytes();
    assert_eq!(request.len(), H + D + 16 * P + 64 * (T + 16 * W) + 512 * E + 1);
    assert_eq!(request.len(), 8_381);
    passes(&request);
    // Every task costs 200,000 everywhere.
    let (answer, rows) = answer_with(64, &request);
    let Answer::Planned { length, .. } = answer else { panic!("{answer:?}") };
    assert_eq!(answer, planned(64, length, 12_800_000, 7_200_000));
    assert_eq!(rows.len(), 64);
    refuses(&[&request[..], b"E"].concat(), 6, 8_381);
}

/// The same with a `Q` for each processor: "the size limit grows by 32 bytes" (A4).
#[test]
fn largest_good_request_with_minimums() {
    let request = largest().with_minimums(&[Some(10_000); 16]).bytes();
    assert_eq!(request.len(), H + D + 16 * Q + 64 * (T + 16 * W) + 512 * E + 1);
    assert_eq!(request.len(), 8_381 + 32);
    passes(&request);
    // No minimum is above 2,000 x 100.
    assert_eq!(answer_with(64, &request), answer_with(64, &largest().bytes()));
    refuses(&[&request[..], b"E"].concat(), 6, 8_413);
}

/// The same with four windows for each: "the size limit grows by 640 bytes" (A5).
#[test]
fn largest_good_request_with_windows() {
    let draft = largest().with_minimums(&[Some(10_000); 16]).with_windows(&all_down());
    let request = draft.bytes();
    assert_eq!(request.len(), H + D + 16 * Q + 64 * M + 64 * (T + 16 * W) + 512 * E + 1);
    assert_eq!(request.len(), 8_413 + 640);
    passes(&request);
    // All are down until 20,000, so the plan is the one without windows, that much later.
    let (answer, rows) = answer_with(64, &request);
    let (earlier, rows_earlier) = answer_with(64, &largest().bytes());
    let Answer::Planned { length, .. } = earlier else { panic!("{earlier:?}") };
    assert_eq!(answer, planned(64, length + 20_000, 12_800_000, 7_200_000));
    for (row, earlier) in rows.iter().zip(rows_earlier) {
        let later = (earlier.0, earlier.1 + 20_000, earlier.2 + 20_000, earlier.3);
        assert_eq!(*row, later);
    }
    refuses(&[&request[..], b"E"].concat(), 6, 9_053);
}

/// The same with a `K` in place of the budget: "the size limit grows by 3 bytes" (A7).
#[test]
fn largest_good_request_with_a_share() {
    let draft = largest().with_minimums(&[Some(10_000); 16]).with_windows(&all_down());
    let request = draft.clone().with_share(1_000).bytes();
    assert_eq!(request.len(), H + D + K + 16 * Q + 64 * M + 64 * (T + 16 * W) + 512 * E + 1);
    assert_eq!((request.len(), MOST_BYTES), (9_056, 9_053 + 3));
    passes(&request);
    // Every task costs 200,000 everywhere, so that either end of the range is 12,800,000.
    let Answer::Planned { length, .. } = answer(&draft.bytes()) else { panic!("it has a plan") };
    for share in [0, 1, 1_000] {
        let request = draft.clone().with_share(share).bytes();
        assert_eq!(answer(&request), planned(64, length, 12_800_000, 0));
    }
    refuses(&[&request[..], b"E"].concat(), 6, MOST_BYTES);
    // A 513th edge, which is whole only with the bytes past the limit.
    let mut edge = request.clone();
    edge.splice(MOST_BYTES - 1.., e(63, 62, 0));
    refuses(&edge, 4, MOST_BYTES - 1);
    refuses(&edge[..MOST_BYTES], 1, MOST_BYTES - 1);
}

// ---- Labels ----

#[test]
fn every_byte_in_a_label() {
    for byte in 0..=255 {
        let listed = byte_in_list(byte);
        let first = with_record(3, t(0, [byte, b'a']));
        let inside = with_record(6, t(1, [b'a', byte, b'b']));
        let last = with_record(9, t(2, [b'a', b'a', b'a', b'a', b'a', b'a', b'a', byte]));
        passes_only_if(listed, &first, 5, 13);
        passes_only_if(listed, &inside, 5, 33);
        passes_only_if(listed || byte == b' ', &last, 5, 53);
    }
    assert_eq!((0..=255).filter(|&byte| byte_in_list(byte)).count(), 64);
}

fn byte_in_list(byte: u8) -> bool {
    matches!(byte, b'A'..=b'Z' | b'a'..=b'z' | b'0'..=b'9' | b'-' | b'_')
}

#[test]
fn label_lengths() {
    passes(&with_record(3, t(0, "x")));
    passes(&with_record(3, t(0, "abcdefgh")));
    passes(&with_record(3, t(0, "left"))); // as task 1 has it
    refuses(&with_record(3, t(0, "")), 5, 13);
    refuses(&with_record(3, t(0, " x")), 5, 13);
    refuses(&with_record(3, t(0, "a b")), 5, 13);
    refuses(&with_record(3, t(0, "a      b")), 5, 13);
    refuses(&with_record(3, t(0, "prep\0\0\0\0")), 5, 13);
}

#[test]
fn label_lookup() {
    let request = with_record(6, t(1, "abcdefgh"));
    for (task, expected, offset) in [(0, "prep", 15), (1, "abcdefgh", 35), (2, "right", 55)] {
        let part = label(&request, task);
        assert_eq!(part, expected.as_bytes());
        assert_eq!(part.as_ptr(), request[offset..].as_ptr());
    }
    for task in [3, 64, 255, 256, usize::MAX] {
        let part = label(&request, task);
        assert!(part.is_empty() && part.as_ptr() == request.as_ptr());
    }
}

#[test]
fn label_lookup_asks_for_reading_only() {
    let mut cyclic = sample(0);
    cyclic.edges.push((1, 0, 0));
    assert_eq!(answer(&cyclic.bytes()), refused(8, 0));
    assert_eq!(label(&cyclic.bytes(), 2), b"right");
    assert_eq!(label(&sample(0).bytes(), 0), b"prep");
}

// ---- Kinds, numbers and order of records ----

#[test]
fn only_the_kind_due() {
    // Each record in turn gets each kind byte; E and Z are due alike at 73, 78
    // and 83, M beside T at 13, Q beside P at 7 and 10, and D and K beside both at 7.
    let good = sample(28).bytes();
    let offsets = [0, 7, 10, 13, 23, 28, 33, 43, 48, 53, 63, 68, 73, 78, 83];
    for at in offsets {
        for kind in 0..=255 {
            let due = match at {
                0 => kind == b'H',
                7 => kind == b'P' || kind == b'Q' || kind == b'D' || kind == b'K',
                10 => kind == b'P' || kind == b'Q',
                13 => kind == b'T' || kind == b'M',
                73 | 78 | 83 => kind == b'E' || kind == b'Z',
                _ => kind == good[at],
            };
            let mut request = good.clone();
            request[at] = kind;
            if !due {
                refuses(&request, 2, at);
            }
        }
    }
    // The other kind due, where it then leads.
    let changed = |at: usize, kind: u8| {
        let mut request = good.clone();
        request[at] = kind;
        request
    };
    refuses(&changed(7, b'D'), 4, 7); // the deadline's bytes are 0, 1, `P`, 1
    refuses(&changed(7, b'K'), 4, 7); // the share's are 0, 1, and the budget is 28
    refuses(&changed(7, b'Q'), 2, 12); // the minimum's are `P`, 1, and 3 is no kind
    refuses(&changed(10, b'Q'), 2, 15); // the minimum's are `T`, 0
    refuses(&changed(13, b'M'), 4, 13); // the begin's are `prep`, the end's spaces
    refuses(&changed(73, b'Z'), 6, 74);
    refuses(&changed(83, b'E'), 1, 83);
}

#[test]
fn at_most_one_deadline_and_before_the_prices() {
    let mut records = Draft { deadline: Some(14), ..sample(28) }.records();
    passes(&records.concat());
    records.insert(2, d(14));
    refuses(&records.concat(), 2, H + D);
    records.swap(1, 3); // now P, D, D
    records.remove(2);
    refuses(&records.concat(), 2, H + P);
}

#[test]
fn numbers_due() {
    refuses(&with_record(1, p(1, 1)), 3, 7);
    refuses(&with_record(2, p(0, 3)), 3, 10);
    refuses(&with_record(2, p(2, 3)), 3, 10);
    refuses(&with_record(3, t(1, "prep")), 3, 13);
    refuses(&with_record(9, t(1, "right")), 3, 53);
    refuses(&with_record(4, w(1, 0, 10)), 3, 23);
    refuses(&with_record(7, w(0, 0, 10)), 3, 43);
    refuses(&with_record(4, w(0, 1, 10)), 3, 23);
    refuses(&with_record(5, w(0, 0, 4)), 3, 28);
    refuses(&with_record(5, w(0, 2, 4)), 3, 28);
}

#[test]
fn edges_rise_by_from_and_then_to() {
    refuses(&with_record(13, e(0, 1, 3)), 3, 78); // equal to the one before
    refuses(&with_record(12, e(1, 0, 2)), 3, 78); // from falls, to rises
    refuses(&with_record(12, e(0, 2, 2)), 3, 78); // equal again
    let edges = |edges: &[(u8, u8, u16)]| Draft { edges: edges.to_vec(), ..sample(28) }.bytes();
    refuses(&edges(&[(0, 2, 0), (0, 1, 0)]), 3, 78); // same from, to falls
    refuses(&edges(&[(0, 1, 0), (1, 2, 0), (0, 2, 0)]), 3, 83);
    passes(&edges(&[(0, 2, 0), (1, 0, 0)])); // from rises, to falls
    passes(&edges(&[(2, 0, 0)])); // the first has none before it
    passes(&edges(&[]));
}

#[test]
fn three_comes_before_four_and_five() {
    refuses(&with_record(1, p(1, 101)), 3, 7);
    refuses(&with_record(3, t(1, "pr;p")), 3, 13);
    refuses(&with_record(4, w(0, 1, 2_001)), 3, 23);
    refuses(&with_record(13, e(0, 0, 0)), 3, 78); // after (0, 1), and equal ends
    refuses(&with_record(13, e(0, 1, 1_001)), 3, 78);
    let edges = |edges: &[(u8, u8, u16)]| Draft { edges: edges.to_vec(), ..sample(28) }.bytes();
    refuses(&edges(&[(2, 1, 0), (1, 3, 0)]), 3, 78);
    refuses(&edges(&[(2, 1, 0), (2, 3, 0)]), 4, 78);
}

#[test]
fn whole_body_comes_before_its_content() {
    refuses(&[&sample(28).bytes()[..13], b"T\x01;"].concat(), 1, 13);
    refuses(&[&sample(28).bytes()[..7], b"P\x09"].concat(), 1, 7);
    refuses(b"H\0\0", 1, 0);
    refuses(b"X", 2, 0);
}

#[test]
fn the_first_fault_ends_reading() {
    let mut records = sample(28).records();
    records[11] = w(2, 1, 2_001);
    records[13] = e(0, 1, 0);
    refuses(&records.concat(), 4, 68);
    records[3] = t(0, "");
    refuses(&records.concat(), 5, 13);
    records[0] = h(65, 17, u32::MAX);
    refuses(&records.concat(), 4, 0);
}

#[test]
fn cut_anywhere() {
    let plain = sample(28).bytes();
    let plain_offsets = [0, 7, 10, 13, 23, 28, 33, 43, 48, 53, 63, 68, 73, 78, 83, 84];
    cut_everywhere(&plain, &plain_offsets);
    let dated = Draft { deadline: Some(14), ..sample(28) }.bytes();
    let dated_offsets = [0, 7, 12, 15, 18, 28, 33, 38, 48, 53, 58, 68, 73, 78, 83, 88, 89];
    cut_everywhere(&dated, &dated_offsets);
}

/// A cut between two records leaves no kind byte, and the place is the input's
/// length; a cut inside one gives its offset. Both are the last offset not
/// above the cut.
fn cut_everywhere(request: &[u8], offsets: &[usize]) {
    assert_eq!(offsets.last(), Some(&request.len()));
    for cut in 0..request.len() {
        let place = offsets.iter().copied().filter(|&at| at <= cut).max().unwrap();
        refuses(&request[..cut], 1, place);
    }
}

#[test]
fn bytes_after_z() {
    let good = sample(28).bytes();
    for byte in 0..=255 {
        refuses(&[&good[..], &[byte]].concat(), 6, 84);
    }
    refuses(&[good.clone(), good].concat(), 6, 84);
    let mut records = sample(28).records();
    records.insert(13, z());
    refuses(&records.concat(), 6, 79);
}

// ---- A minimum charge ----

/// S(28) with its processors as `Q`s where they have a minimum here.
fn sample_with(minimums: [Option<u16>; 2]) -> Draft {
    sample(28).with_minimums(&minimums)
}

#[test]
fn s28_with_a_minimum() {
    let request = sample_with([None, Some(10)]).bytes();
    let expected = b"H\x03\x02\x1c\0\0\0P\0\x01Q\x01\x03\x0a\0\
        T\0prep    W\0\0\x0a\0W\0\x01\x04\0T\x01left    W\x01\0\x08\0W\x01\x01\x04\0\
        T\x02right   W\x02\0\x06\0W\x02\x01\x02\0E\0\x01\x02\0E\0\x02\x03\0Z";
    assert_eq!(request, expected);
    let expected = "plan 3 20 26 2\nprep 1 0 4 12\nleft 0 6 14 8\nright 0 14 20 6\n";
    assert_eq!(text(&request), expected.as_bytes());
    let rows = vec![(1, 0, 4, 12), (0, 6, 14, 8), (0, 14, 20, 6)];
    assert_eq!(answer_with(3, &request), (planned(3, 20, 26, 2), rows));
    assert_eq!(label(&request, 2), b"right");
}

#[test]
fn s28_with_minimums_of_0() {
    let expected = text(&sample(28).bytes());
    for minimums in [[None, Some(0)], [Some(0), None], [Some(0), Some(0)]] {
        assert_eq!(text(&sample_with(minimums).bytes()), expected);
    }
}

#[test]
fn s28_with_a_minimum_multiplied() {
    let draft = sample_with([None, Some(10)]).times(3, 2);
    assert_eq!((draft.budget, &draft.minimums[..]), (168, &[None, Some(60)][..]));
    let rows = vec![(1, 0, 12, 72), (0, 18, 42, 48), (0, 42, 60, 36)];
    assert_eq!(answer_with(3, &draft.bytes()), (planned(3, 60, 156, 12), rows));
}

#[test]
fn s28_too_dear_by_a_minimum() {
    // Processor 0 bills 11 for any task, so the lowest costs are 11, 11 and 6.
    let draft = sample_with([Some(11), None]);
    let rows = vec![(0, 0, 10, 11), (0, 10, 18, 11), (1, 13, 15, 6)];
    assert_eq!(answer_with(3, &draft.bytes()), (planned(3, 18, 28, 0), rows));
    assert_eq!(answer(&Draft { budget: 27, ..draft }.bytes()), refused(9, 28));
}

#[test]
fn minimum_0_to_10_000() {
    for (k, j, at) in [(1, 0, 7), (2, 1, 10)] {
        passes(&with_record(k, q(j, 1, 0)));
        passes(&with_record(k, q(j, 1, 10_000)));
        refuses(&with_record(k, q(j, 1, 10_001)), 4, at);
        refuses(&with_record(k, q(j, 1, u16::MAX)), 4, at);
        passes(&with_record(k, q(j, 0, 10_000)));
        passes(&with_record(k, q(j, 100, 10_000)));
        refuses(&with_record(k, q(j, 101, 10_000)), 4, at);
    }
    // Both bytes count, the lowest first.
    let request = Draft::new(1_000, &[0], &[&[1]], &[]).with_minimums(&[Some(0x0102)]).bytes();
    assert_eq!(answer(&request), planned(1, 1, 0x0102, 1_000 - 0x0102));
    assert_eq!(request[7..12], [b'Q', 0, 0, 2, 1]);
}

#[test]
fn number_then_price_then_minimum() {
    for (k, at) in [(1, 7), (2, 10)] {
        refuses(&with_record(k, q(2, 1, 10_001)), 3, at);
        refuses(&with_record(k, q(2, 101, 10_001)), 3, at);
    }
    refuses(&with_record(2, q(0, 3, 10)), 3, 10);
    refuses(&with_record(1, q(0, 101, 10_001)), 4, 7);
    // A fault in the `P` behind it comes later.
    let mut records = sample_with([Some(10_001), None]).records();
    records[2] = p(5, 101);
    refuses(&records.concat(), 4, 7);
}

#[test]
fn q_cut_anywhere() {
    let last = sample_with([None, Some(10)]).bytes();
    let last_offsets = [0, 7, 10, 15, 25, 30, 35, 45, 50, 55, 65, 70, 75, 80, 85, 86];
    cut_everywhere(&last, &last_offsets);
    let both = Draft { deadline: Some(14), ..sample_with([Some(10_000), Some(9)]) }.bytes();
    let both_offsets = [0, 7, 12, 17, 22, 32, 37, 42, 52, 57, 62, 72, 77, 82, 87, 92, 93];
    cut_everywhere(&both, &both_offsets);
    // Four cuts in the body, two of them in the minimum, whatever stands there.
    for cut in 11..15 {
        let request = with_record(2, q(9, 255, u16::MAX));
        refuses(&request[..cut], 1, 10);
    }
}

#[test]
fn q_where_no_processor_is_due() {
    let records = sample_with([Some(0), Some(10)]).records();
    let offset = |k: usize| records[..k].concat().len();
    // For the header, a task, its minutes, an edge and the end.
    for k in [0, 3, 4, 5, 6, 9, 12, 13, 14] {
        let mut changed = records.clone();
        changed[k] = q(k as u8, 1, 10);
        refuses(&changed.concat(), 2, offset(k));
        let mut inserted = records.clone();
        inserted.insert(k, q(2, 1, 10_001));
        refuses(&inserted.concat(), 2, offset(k));
    }
    // One less, and a deadline behind the first.
    let mut fewer = records.clone();
    fewer.remove(2);
    refuses(&fewer.concat(), 2, H + Q);
    let mut dated = records.clone();
    dated.insert(2, d(14));
    refuses(&dated.concat(), 2, H + Q);
    // After the end.
    refuses(&[records.concat(), q(2, 1, 10)].concat(), 6, offset(15));
}

/// Every way to mix both kinds on four processors: the records behind them are
/// found, and each processor has its own numbers.
#[test]
fn p_and_q_mixed() {
    let minutes: [&[u16]; 2] = [&[7, 6, 5, 4], &[1, 2, 3, 9]];
    for mix in 0u32..16 {
        let minimum = |j: u16| (mix >> j & 1 == 1).then_some(20 + j);
        let minimums: Vec<Option<u16>> = (0..4).map(minimum).collect();
        let draft = Draft::new(1_000, &[1, 2, 3, 100], &minutes, &[(0, 1, 7)]);
        let mut draft = draft.with_minimums(&minimums);
        for deadline in [None, Some(1_000)] {
            draft.deadline = deadline;
            let request = draft.bytes();
            let workflow = read(&request).unwrap();
            assert_eq!(workflow.prices, [1, 2, 3, 100]);
            let expected: Vec<u32> = minimums.iter().map(|&m| m.unwrap_or(0).into()).collect();
            assert_eq!(workflow.minimums, expected);
            assert_eq!(workflow.minutes, [7, 6, 5, 4, 1, 2, 3, 9]);
            assert_eq!(workflow.edges.len(), 1);
            let before = H + deadline.map_or(0, |_| D) + 4 * P + 2 * mix.count_ones() as usize;
            assert_eq!(workflow.labels[0].start, before + 2);
            assert_eq!(label(&request, 1), b"t1");
        }
    }
}

// ---- Maintenance windows ----

/// S(28) with these windows, the first at 13.
fn down(windows: &[(u8, u32, u32)]) -> Vec<u8> {
    sample(28).with_windows(windows).bytes()
}

#[test]
fn s28_with_windows() {
    let request = down(&[(0, 7, 9), (1, 4, 30)]);
    let expected = b"H\x03\x02\x1c\0\0\0P\0\x01P\x01\x03\
        M\0\x07\0\0\0\x09\0\0\0M\x01\x04\0\0\0\x1e\0\0\0\
        T\0prep    W\0\0\x0a\0W\0\x01\x04\0T\x01left    W\x01\0\x08\0W\x01\x01\x04\0\
        T\x02right   W\x02\0\x06\0W\x02\x01\x02\0E\0\x01\x02\0E\0\x02\x03\0Z";
    assert_eq!(request, expected);
    assert_eq!(request.len(), 84 + 2 * M);
    let expected = "plan 3 23 26 2\nprep 1 0 4 12\nleft 0 9 17 8\nright 0 17 23 6\n";
    assert_eq!(text(&request), expected.as_bytes());
    let rows = vec![(1, 0, 4, 12), (0, 9, 17, 8), (0, 17, 23, 6)];
    assert_eq!(answer_with(3, &request), (planned(3, 23, 26, 2), rows));
    assert_eq!(label(&request, 2), b"right");
    // Held against a deadline as any other plan.
    let dated = |deadline| {
        let draft = sample(28).with_windows(&[(0, 7, 9), (1, 4, 30)]);
        answer(&Draft { deadline: Some(deadline), ..draft }.bytes())
    };
    assert_eq!(dated(23), planned(3, 23, 26, 2));
    assert_eq!(dated(22), refused(11, 23));
}

#[test]
fn s28_without_windows_is_as_it_was() {
    assert_eq!(down(&[]), sample(28).bytes());
    // Windows in minutes that no task is tried in.
    let idle = down(&[(0, 20, 20_000), (1, 8, 9)]);
    assert_eq!(text(&idle), text(&sample(28).bytes()));
}

#[test]
fn window_ends_at_20_000_at_the_latest() {
    passes(&down(&[(0, 0, 20_000)]));
    passes(&down(&[(1, 19_999, 20_000)]));
    refuses(&down(&[(0, 0, 20_001)]), 4, 13);
    refuses(&down(&[(1, 20_000, 20_001)]), 4, 13);
    refuses(&down(&[(1, 20_000, 20_000)]), 4, 13);
    refuses(&down(&[(1, 0, u32::MAX)]), 4, 13);
    // Each of the four bytes counts, the lowest first.
    for byte in 0..4 {
        let minute = 2u32 << (8 * byte);
        passes_only_if(minute <= 20_000, &down(&[(0, 1, minute)]), 4, 13);
        passes_only_if(minute <= 20_000, &down(&[(0, minute - 1, minute)]), 4, 13);
    }
    let workflow = read(&down(&[(1, 0x0102, 0x0304)])).unwrap();
    assert_eq!(workflow.windows, [Window { processor: 1, begin: 0x0102, end: 0x0304 }]);
    assert_eq!(down(&[(1, 0x0102, 0x0304)])[13..23], *b"M\x01\x02\x01\0\0\x04\x03\0\0");
}

#[test]
fn window_begins_before_it_ends() {
    for begin in [0, 1, 255, 256, 19_999] {
        passes(&down(&[(0, begin, begin + 1)]));
        refuses(&down(&[(0, begin, begin)]), 4, 13);
        refuses(&down(&[(0, begin + 1, begin)]), 4, 13);
    }
    refuses(&down(&[(0, u32::MAX, 5)]), 4, 13);
    refuses(&down(&[(0, u32::MAX, u32::MAX)]), 4, 13);
    // Bytes of the begin above the lowest count too.
    refuses(&down(&[(0, 0x0100, 5)]), 4, 13);
    refuses(&down(&[(0, 0x0100_0000, 5)]), 4, 13);
}

#[test]
fn window_of_a_processor_below_m() {
    passes(&down(&[(0, 3, 5)]));
    passes(&down(&[(1, 3, 5)]));
    for j in [2, 3, 16, 255] {
        refuses(&down(&[(j, 3, 5)]), 4, 13);
        refuses(&down(&[(1, 3, 5), (j, 3, 5)]), 4, 23);
    }
    let windows: Vec<_> = (0..16).map(|j| (j, 0, 1)).collect();
    let mut draft = even(2, 16).with_windows(&windows);
    passes(&draft.bytes());
    draft.windows.push((16, 0, 1));
    refuses(&draft.bytes(), 4, H + 16 * P + 16 * M);
    refuses(&even(2, 1).with_windows(&[(1, 0, 1)]).bytes(), 4, H + P);
}

#[test]
fn four_windows_of_a_processor_and_the_fifth() {
    let of = |j: u8, count: u32| -> Vec<_> { (0..count).map(|k| (j, 2 * k, 2 * k + 1)).collect() };
    for j in [0, 1] {
        passes(&down(&of(j, 4)));
        refuses(&down(&of(j, 5)), 4, 13 + 4 * M);
        refuses(&down(&of(j, 6)), 4, 13 + 4 * M);
    }
    // They are counted for each processor.
    passes(&down(&[of(0, 4), of(1, 4)].concat()));
    refuses(&down(&[of(0, 5), of(1, 4)].concat()), 4, 13 + 4 * M);
    refuses(&down(&[of(0, 4), of(1, 5)].concat()), 4, 13 + 8 * M);
    refuses(&down(&[of(0, 1), of(1, 5)].concat()), 4, 13 + 5 * M);
    // Four that touch, and a fifth that does.
    let touching = |count: u32| -> Vec<_> { (0..count).map(|k| (0, k, k + 1)).collect() };
    passes(&down(&touching(4)));
    refuses(&down(&touching(5)), 4, 13 + 4 * M);
    // Before it is counted, its kind, its whole body and its order are looked at.
    let fifth = |window: (u8, u32, u32)| [of(0, 4), vec![window]].concat();
    refuses(&down(&fifth((0, 8, 9)))[..13 + 5 * M - 1], 1, 13 + 4 * M);
    refuses(&down(&fifth((0, 6, 9))), 3, 13 + 4 * M);
    refuses(&down(&fifth((0, 5, 9))), 3, 13 + 4 * M);
    refuses(&down(&fifth((0, 9, 9))), 4, 13 + 4 * M);
    refuses(&down(&fifth((2, 9, 10))), 4, 13 + 4 * M);
    passes(&down(&fifth((1, 0, 1))));
}

#[test]
fn windows_rise_by_processor_and_then_begin() {
    passes(&down(&[(0, 9, 10), (1, 3, 5)])); // the processor rises, the begin falls
    refuses(&down(&[(1, 3, 5), (0, 9, 10)]), 3, 23); // the processor falls
    refuses(&down(&[(0, 9, 10), (0, 3, 5)]), 3, 23); // the begin falls
    refuses(&down(&[(0, 3, 5), (0, 3, 5)]), 3, 23); // equal
    refuses(&down(&[(0, 3, 5), (0, 3, 9)]), 3, 23); // equal but for the end
    refuses(&down(&[(0, 3, 5), (1, 3, 5), (0, 6, 7)]), 3, 33);
    refuses(&down(&[(0, 3, 5), (1, 3, 5), (1, 6, 7), (1, 4, 5)]), 3, 43);
    passes(&down(&[(1, 3, 5)])); // the first has none before it
                                 // A begin counts as a whole, not byte by byte.
    passes(&down(&[(0, 0x00ff, 0x0100), (0, 0x0101, 0x0102)]));
    refuses(&down(&[(0, 0x0101, 0x0102), (0, 0x00ff, 0x0100)]), 3, 23);
}

#[test]
fn no_window_inside_the_one_before() {
    passes(&down(&[(0, 3, 5), (0, 5, 6)])); // begins where it ends
    passes(&down(&[(0, 3, 5), (0, 6, 7)]));
    refuses(&down(&[(0, 3, 5), (0, 4, 6)]), 3, 23); // in its last minute
    refuses(&down(&[(0, 3, 9), (0, 4, 6)]), 3, 23); // all inside
    refuses(&down(&[(0, 0, 20_000), (0, 19_999, 20_000)]), 3, 23);
    passes(&down(&[(0, 3, 9), (1, 4, 6)])); // another processor's
    refuses(&down(&[(0, 3, 5), (0, 5, 8), (0, 7, 9)]), 3, 33); // the one right before
    passes(&down(&[(0, 0, 5), (0, 5, 10), (0, 10, 19_999), (0, 19_999, 20_000)]));
}

#[test]
fn order_of_windows_comes_before_their_ranges() {
    refuses(&down(&[(0, 3, 5), (0, 4, 4)]), 3, 23); // inside, and empty
    refuses(&down(&[(0, 3, 5), (0, 3, 20_001)]), 3, 23);
    refuses(&down(&[(0, 3, 5), (0, 2, 20_001)]), 3, 23);
    refuses(&down(&[(1, 3, 5), (0, 9, 8)]), 3, 23);
    refuses(&down(&[(0, 3, 5), (0, 5, 5)]), 4, 23); // in order, and empty
    refuses(&down(&[(0, 3, 5), (0, 5, 20_001)]), 4, 23);
    refuses(&down(&[(0, 3, 5), (0, u32::MAX, 7)]), 4, 23);
    refuses(&down(&[(0, 3, 5), (255, 2, 1)]), 4, 23);
    // The fault of the one before comes first.
    refuses(&down(&[(0, 3, 20_001), (0, 3, 5)]), 4, 13);
    refuses(&down(&[(255, 3, 5), (0, 3, 5)]), 4, 13);
    refuses(&down(&[(0, 5, 5), (0, 4, 3)]), 4, 13);
}

#[test]
fn m_cut_anywhere() {
    let request = down(&[(0, 7, 9), (1, 4, 30)]);
    let offsets = [0, 7, 10, 13, 23, 33, 43, 48, 53, 63, 68, 73, 83, 88, 93, 98, 103, 104];
    cut_everywhere(&request, &offsets);
    let draft = Draft { deadline: Some(14), ..sample_with([Some(10), None]) };
    let request = draft.with_windows(&[(1, 0, 20_000)]).bytes();
    let offsets = [0, 7, 12, 17, 20, 30, 40, 45, 50, 60, 65, 70, 80, 85, 90, 95, 100, 101];
    cut_everywhere(&request, &offsets);
    // Nine cuts in the body, whatever stands there.
    let request = down(&[(0, 7, 9), (0, u32::MAX, 3)]);
    refuses(&request, 4, 23);
    for cut in 24..33 {
        refuses(&request[..cut], 1, 23);
    }
}

#[test]
fn m_where_none_is_due() {
    // H, Q, Q, M, T W W, T W W, T W W, E E, Z.
    let records = sample_with([Some(0), Some(10)]).with_windows(&[(0, 7, 9)]).records();
    let offset = |k: usize| records[..k].concat().len();
    // For the header and a processor, and in each place behind the first task.
    for k in [0, 1, 2, 5, 6, 7, 8, 9, 10, 11, 12, 13, 14, 15] {
        let mut inserted = records.clone();
        inserted.insert(k, m(1, 5, 4));
        refuses(&inserted.concat(), 2, offset(k));
    }
    // Before and behind the window, where one is due.
    for (k, number) in [(3, 3), (4, 0)] {
        let mut inserted = records.clone();
        inserted.insert(k, m(1, 4, 5));
        passes_only_if(number == 0, &inserted.concat(), number, offset(4));
    }
    refuses(&[records.concat(), m(1, 4, 5)].concat(), 6, offset(16));
    // No other kind stands among windows.
    let others = [h(3, 2, 28), d(14), k(0), p(0, 1), p(1, 3), q(1, 3, 10), w(0, 0, 10)];
    for record in others.into_iter().chain([e(0, 1, 2), z()]) {
        for k in [3, 4] {
            let mut inserted = records.clone();
            inserted.insert(k, record.clone());
            refuses(&inserted.concat(), 2, offset(k));
        }
    }
    // Nor instead of a processor's record.
    let mut fewer = records.clone();
    fewer.remove(2);
    refuses(&fewer.concat(), 2, H + Q);
}

/// From no window to four on each of three processors: the records behind them are
/// found, and each processor has its own.
#[test]
fn windows_of_any_number() {
    let minutes: [&[u16]; 2] = [&[7, 6, 5], &[1, 2, 3]];
    for counts in 0u32..125 {
        let count = |j: u8| counts / 5u32.pow(j.into()) % 5;
        let of = |j: u8| (0..count(j)).map(move |k| (j, 10 * k + u32::from(j), 10 * k + 9));
        let windows: Vec<_> = (0..3).flat_map(of).collect();
        let draft = Draft::new(1_000, &[1, 2, 3], &minutes, &[(0, 1, 7)]).with_windows(&windows);
        for (deadline, least) in [(None, None), (Some(1_000), Some(5))] {
            let draft = Draft { deadline, ..draft.clone() }.with_minimums(&[least]);
            let request = draft.bytes();
            let workflow = read(&request).unwrap();
            let read = workflow.windows.iter().map(|w| (w.processor as u8, w.begin, w.end));
            assert!(read.eq(windows.iter().copied()));
            assert_eq!(workflow.minutes, [7, 6, 5, 1, 2, 3]);
            let more = deadline.map_or(0, |_| D) + least.map_or(0, |_| Q - P);
            assert_eq!(workflow.labels[0].start, H + 3 * P + more + M * windows.len() + 2);
            assert_eq!(label(&request, 1), b"t1");
        }
    }
}

// ---- Markers ----

/// S(28) with a first and a last task of no minutes, as workflows are exported: it
/// is planned as before, with `start` at 0 and `end` at 14, where it ends.
#[test]
fn s28_with_a_start_and_an_end() {
    let minutes: [&[u16]; 5] = [&[0, 0], &[10, 4], &[8, 4], &[6, 2], &[0, 0]];
    let edges = [(1, 2, 2), (1, 3, 3), (2, 0, 0), (3, 0, 0), (4, 1, 0)];
    let mut draft = Draft::new(28, &[1, 3], &minutes, &edges);
    for (task, label) in draft.tasks.iter_mut().zip(["end", "prep", "left", "right", "start"]) {
        task.0 = label.to_string();
    }
    let request = draft.bytes();
    assert_eq!(ranks(&read(&request).unwrap()), Some(vec![0, 30, 12, 8, 30]));
    let expected = "plan 5 14 26 2\nend 0 14 14 0\nprep 1 0 4 12\nleft 0 6 14 8\n\
        right 1 4 6 6\nstart 0 0 0 0\n";
    assert_eq!(text(&request), expected.as_bytes());
    let dated = |deadline| answer(&Draft { deadline: Some(deadline), ..draft.clone() }.bytes());
    assert_eq!(dated(14), planned(5, 14, 26, 2));
    assert_eq!(dated(13), refused(11, 14));
}

/// The sample with markers: the last task has the lowest number, and the rank of the
/// one before it, after which it is placed; the first has the highest, and the rank of
/// `left`. By document 01's order `end` would be at 0.
#[test]
fn the_sample_with_markers() {
    let all = samples::all();
    let (_, request) = all.iter().find(|(name, _)| *name == "markers").unwrap();
    let expected = b"H\x05\x02\x14\0\0\0P\0\x01P\x01\x03\
        T\0end     W\0\0\0\0W\0\x01\0\0T\x01left    W\x01\0\x08\0W\x01\x01\x04\0\
        T\x02right   W\x02\0\x06\0W\x02\x01\x02\0T\x03join    W\x03\0\0\0W\x03\x01\0\0\
        T\x04start   W\x04\0\0\0W\x04\x01\0\0\
        E\x01\x03\x02\0E\x02\x03\x03\0E\x03\0\0\0E\x04\x01\0\0E\x04\x02\0\0Z";
    assert_eq!(request, expected);
    let workflow = read(request).unwrap();
    assert_eq!(ranks(&workflow), Some(vec![0, 16, 14, 0, 16]));
    assert_eq!(order(&workflow), Some(vec![4, 1, 2, 3, 0]));
    let expected = "plan 5 6 18 2\nend 0 6 6 0\nleft 1 0 4 12\nright 0 0 6 6\n\
        join 0 6 6 0\nstart 0 0 0 0\n";
    assert_eq!(text(request), expected.as_bytes());
}

// ---- Refusals after reading ----

#[test]
fn order_of_the_later_refusals() {
    let mut draft = Draft { deadline: Some(1), ..sample(0) };
    draft.edges.push((1, 0, 0));
    let damaged = [&draft.bytes()[..], b"Z"].concat();
    assert_eq!(answer_with(0, &damaged).0, refused(6, 84 + D + E));
    assert_eq!(answer_with(2, &draft.bytes()).0, refused(7, 3));
    assert_eq!(answer_with(3, &draft.bytes()).0, refused(8, 0));
    draft.edges.pop();
    assert_eq!(answer_with(2, &draft.bytes()).0, refused(7, 3));
    assert_eq!(answer_with(3, &draft.bytes()).0, refused(9, 24));
    draft.budget = 24;
    assert_eq!(answer_with(3, &draft.bytes()).0, refused(11, 18));
    draft.deadline = None;
    assert_eq!(answer_with(3, &draft.bytes()).0, planned(3, 18, 24, 0));
}

#[test]
fn lowest_task_with_a_path_back() {
    let cycle =
        |n, edges: &[(u8, u8, u16)]| answer(&Draft { edges: edges.to_vec(), ..even(n, 1) }.bytes());
    // Task 0 only leads to the cycle.
    assert_eq!(cycle(3, &[(0, 1, 0), (1, 2, 0), (2, 1, 0)]), refused(8, 1));
    // Task 0 only follows it.
    assert_eq!(cycle(3, &[(1, 2, 0), (2, 0, 0), (2, 1, 0)]), refused(8, 1));
    // Task 0 stands between two cycles.
    let edges = [(0, 3, 0), (1, 2, 0), (2, 0, 0), (2, 1, 0), (3, 4, 0), (4, 3, 0)];
    assert_eq!(cycle(5, &edges), refused(8, 1));
    // A long way round, and two cycles of which the lower one counts.
    assert_eq!(cycle(4, &[(0, 2, 0), (1, 0, 0), (2, 3, 0), (3, 1, 0)]), refused(8, 0));
    assert_eq!(cycle(5, &[(1, 4, 0), (2, 3, 0), (3, 2, 0), (4, 1, 0)]), refused(8, 1));
    // The last task's loop.
    let far = [(62, 63, 0), (63, 62, 0)];
    assert_eq!(cycle(64, &far), refused(8, 62));
}

#[test]
fn a_refusal_keeps_every_row() {
    // `answer_with` compares the rows; here each number that a request can
    // give is had once.
    let mut cyclic = sample(28);
    cyclic.edges.push((1, 0, 0));
    let requests = [
        (sample(28).bytes()[..50].to_vec(), refused(1, 48)),
        (with_record(2, w(0, 0, 1)), refused(2, 10)),
        (with_record(2, p(5, 1)), refused(3, 10)),
        (with_record(2, p(1, 101)), refused(4, 10)),
        (with_record(2, q(1, 3, 10_001)), refused(4, 10)),
        (down(&[(0, 3, 5), (0, 4, 6)]), refused(3, 23)),
        (down(&[(0, 3, 5), (0, 5, 20_001)]), refused(4, 23)),
        (with_record(3, t(0, "")), refused(5, 13)),
        ([sample(28).bytes(), z()].concat(), refused(6, 84)),
        (cyclic.bytes(), refused(8, 0)),
        (sample(23).bytes(), refused(9, 24)),
        (Draft { deadline: Some(13), ..sample(28) }.bytes(), refused(11, 14)),
    ];
    for (request, expected) in requests {
        assert_eq!(answer_with(64, &request).0, expected);
    }
    assert_eq!(answer_with(2, &sample(28).bytes()).0, refused(7, 3));
}

// ---- The program ----

fn run(input: &[u8]) -> Vec<u8> {
    let output = common::run(&[], input);
    assert!(output.status.success());
    output.stdout
}

#[test]
fn the_program_prints_the_text() {
    let good = sample(28).bytes();
    assert_eq!(run(&good), text(&good));
    assert_eq!(run(b""), b"no 1 0\n");
    assert_eq!(run(&good[..9]), b"no 1 7\n");
    assert_eq!(run(&[&good[..], &[0; 20_000]].concat()), b"no 6 84\n");
    let largest = largest().bytes();
    assert_eq!(run(&largest), text(&largest));
    assert_eq!(text(&largest).split(|&byte| byte == b'\n').count(), 1 + 64 + 1);
    assert!(text(&largest).starts_with(b"plan 64 "));
    assert_eq!(run(&[&largest[..], &[b'E'; 20_000]].concat()), b"no 6 8381\n");
    let minimum = sample_with([None, Some(10)]).bytes();
    assert_eq!(run(&minimum), text(&minimum));
    let windows = down(&[(0, 7, 9), (1, 4, 30)]);
    assert_eq!(run(&windows), text(&windows));
    let longest = self::largest().with_minimums(&[Some(10_000); 16]).with_windows(&all_down());
    let longest = longest.with_share(1_000).bytes();
    assert_eq!(run(&longest), text(&longest));
    let more = [&longest[..], &[b'Q'; 20_000]].concat();
    assert_eq!(run(&more), format!("no 6 {MOST_BYTES}\n").into_bytes());
}
