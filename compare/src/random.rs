//! Random requests from a fixed seed, good and damaged, for tests and measurements.

use std::ops::Range;

use crate::build::{d as deadline_record, k as share_record, m as window_record, Draft};
use crate::request::LIST;

/// Marsaglia's xorshift with 64 bits.
pub struct Random(pub u64);

impl Random {
    pub fn number(&mut self) -> u64 {
        self.0 ^= self.0 << 13;
        self.0 ^= self.0 >> 7;
        self.0 ^= self.0 << 17;
        self.0
    }

    /// Both ends are included.
    pub fn within(&mut self, low: u64, high: u64) -> u64 {
        low + self.number() % (high - low + 1)
    }

    pub fn one_in(&mut self, count: u64) -> bool {
        self.within(1, count) == 1
    }

    /// Both ends are included, and each is given at least once in eight times.
    pub fn often_an_end(&mut self, low: u64, high: u64) -> u64 {
        match self.within(1, 8) {
            1 => low,
            2 => high,
            _ => self.within(low, high),
        }
    }

    /// One of these.
    pub fn one_of<T: Copy>(&mut self, these: &[T]) -> T {
        these[self.within(0, these.len() as u64 - 1) as usize]
    }
}

/// The largest values a draft may use.
pub struct Limits {
    pub tasks: u64,
    pub processors: u64,
    pub edges: u64,
    pub minutes: u64,
    pub transfer: u64,
    pub price: u64,
    pub minimum: u64,
    /// When the last window ends.
    pub window: u64,
}

pub const SMALL: Limits = Limits {
    tasks: 8,
    processors: 4,
    edges: 14,
    minutes: 20,
    transfer: 10,
    price: 9,
    minimum: 100,
    window: 60,
};
pub const FULL: Limits = Limits {
    tasks: 64,
    processors: 16,
    edges: 512,
    minutes: 2_000,
    transfer: 1_000,
    price: 100,
    minimum: 10_000,
    window: 20_000,
};

/// What task i costs on processor j.
pub fn cost(draft: &Draft, i: usize, j: usize) -> u64 {
    let by_minutes = u64::from(draft.tasks[i].1[j]) * u64::from(draft.prices[j]);
    by_minutes.max(draft.minimum(j).unwrap_or(0).into())
}

/// Every task on its cheapest processor.
pub fn cheapest_total(draft: &Draft) -> u64 {
    let all = 0..draft.prices.len();
    (0..draft.tasks.len()).map(|i| all.clone().map(|j| cost(draft, i, j)).min().unwrap()).sum()
}

/// For m processors a minimum each, or none where it is a `P`: a third of the
/// time all are `Q`s, else each is a `Q` or a `P`.
pub fn minimums(
    random: &mut Random,
    m: usize,
    mut minimum: impl FnMut(&mut Random, usize) -> u64,
) -> Vec<Option<u16>> {
    let all = random.one_in(3);
    let one = |j| (all || random.one_in(2)).then(|| minimum(random, j) as u16);
    (0..m).map(one).collect()
}

/// So many windows of processor j, within these minutes. Some touch, some begin
/// with the first of the minutes and some end with the last.
pub fn windows_of(
    random: &mut Random,
    j: usize,
    count: u64,
    (first, last): (u64, u64),
) -> Vec<(u8, u32, u32)> {
    let mut minutes: Vec<u64> =
        (0..2 * count).map(|_| random.often_an_end(first, last - count)).collect();
    minutes.sort();
    // Each window is a minute longer than drawn, so that it has one, and all
    // behind it are a minute later.
    let window = |(k, pair): (usize, &[u64])| {
        let later = k as u64;
        (j as u8, (pair[0] + later) as u32, (pair[1] + later + 1) as u32)
    };
    minutes.chunks_exact(2).enumerate().map(window).collect()
}

/// Windows for m processors, none that ends after `latest`: up to four for each,
/// or a quarter of the time for one processor alone.
pub fn windows(random: &mut Random, m: usize, latest: u64) -> Vec<(u8, u32, u32)> {
    if random.one_in(4) {
        let (alone, count) = (random.within(0, m as u64 - 1), random.within(1, 4));
        return windows_of(random, alone as usize, count, (0, latest));
    }
    let of = |j| {
        let count = random.often_an_end(0, 4);
        windows_of(random, j, count, (0, latest))
    };
    (0..m).flat_map(of).collect()
}

/// Makes task i a marker: 0 minutes on all processors. If it shall tie, the edges
/// that leave it have transfer 0, so that it has the rank of a task that waits for
/// it, if there is one.
pub fn make_marker(draft: &mut Draft, i: usize, tie: bool) {
    draft.tasks[i].1.fill(0);
    let leaving = draft.edges.iter_mut().filter(|edge| tie && usize::from(edge.0) == i);
    leaving.for_each(|edge| edge.2 = 0);
}

/// Makes one task in so many a marker.
pub fn markers(random: &mut Random, draft: &mut Draft, one_in: u64, tie: bool) {
    for i in 0..draft.tasks.len() {
        if random.one_in(one_in) {
            make_marker(draft, i, tie);
        }
    }
}

/// Makes one in so many of all minutes 0, so that a task may take no time on one
/// processor and some on another.
pub fn single_zeros(random: &mut Random, draft: &mut Draft, one_in: u64) {
    for time in draft.tasks.iter_mut().flat_map(|task| &mut task.1) {
        if random.one_in(one_in) {
            *time = 0;
        }
    }
}

/// Whether some task takes 0 minutes on some processor.
pub fn has_a_zero(draft: &Draft) -> bool {
    draft.tasks.iter().any(|task| task.1.contains(&0))
}

/// A share: often one at or beside an end of its range, or the middle.
pub fn share(random: &mut Random) -> u16 {
    match random.within(1, 8) {
        1 => 0,
        2 => 1,
        3 => 500,
        4 => 999,
        5 => 1_000,
        _ => random.within(0, 1_000) as u16,
    }
}

/// A good request. Edges mostly follow a random order of the tasks; one draft
/// in ten may have a cycle. Three in four may have `Q`s, two in three windows, and
/// half of them minutes of 0. The budget lies around and above the cheapest total;
/// one in three has a `K` in its place.
pub fn draft(random: &mut Random, limits: &Limits) -> Draft {
    let n = random.within(1, limits.tasks);
    let m = random.within(1, limits.processors);
    let mut draft = Draft::new(0, &[], &[], &[]);
    draft.prices = (0..m).map(|_| random.within(0, limits.price) as u8).collect();
    for i in 0..n {
        let minutes = (0..m).map(|_| random.within(1, limits.minutes) as u16).collect();
        draft.tasks.push((format!("T-{i}"), minutes));
    }

    let mut order: Vec<u8> = (0..n as u8).collect();
    for i in (1..order.len()).rev() {
        order.swap(i, random.within(0, i as u64) as usize);
    }
    let any_way = random.one_in(10);
    for _ in 0..random.within(0, limits.edges) {
        let first = random.within(0, n - 1) as usize;
        let second = random.within(0, n - 1) as usize;
        let (from, to) =
            if any_way { (first, second) } else { (first.min(second), first.max(second)) };
        if from != to {
            let transfer = random.within(0, limits.transfer) as u16;
            draft.edges.push((order[from], order[to], transfer));
        }
    }
    draft.edges.sort();
    draft.edges.dedup_by_key(|edge| (edge.0, edge.1));
    if !random.one_in(4) {
        draft.minimums = minimums(random, m as usize, |random, _| random.within(0, limits.minimum));
    }
    match random.within(1, 16) {
        1..=3 => single_zeros(random, &mut draft, 4),
        4 => markers(random, &mut draft, 3, false),
        5..=7 => markers(random, &mut draft, 2, true),
        8 => {
            let tie = random.one_in(2);
            markers(random, &mut draft, 1, tie);
        }
        _ => {}
    }

    let cheapest = cheapest_total(&draft);
    let budget = random.within(cheapest - cheapest / 20, cheapest * 2 + 10);
    draft.budget = budget.min(20_000_000) as u32;
    if random.one_in(4) {
        draft.deadline = Some(random.within(1, limits.minutes * n + 1) as u32);
    }
    if !random.one_in(3) {
        draft.windows = windows(random, m as usize, limits.window);
    }
    if random.one_in(3) {
        draft = draft.with_share(share(random));
    }
    draft
}

/// One to three changes, each of a byte, of a bit, a cut, a byte more or a
/// byte less.
pub fn damage(random: &mut Random, request: &mut Vec<u8>) {
    for _ in 0..random.within(1, 3) {
        let at = random.within(0, request.len() as u64) as usize;
        let byte = random.number() as u8;
        match random.within(1, 5) {
            1 => request.truncate(at),
            2 => request.insert(at, byte),
            _ if at == request.len() => request.push(byte),
            3 => request[at] = byte,
            4 => request[at] ^= 1 << random.within(0, 7),
            _ => drop(request.remove(at)),
        }
    }
}

/// A good request of exactly these sizes, for readers: each number anywhere in
/// its range and often at an end of it, labels of any bytes of the list, a
/// deadline in every second one; three in four may have `Q`s, two in three
/// windows, half of them minutes of 0, one in three a `K`. A request of n tasks has
/// n x (n-1) edges at the most.
pub fn sized(random: &mut Random, n: u64, m: u64, edges: u64) -> Draft {
    let mut draft = Draft::new(random.often_an_end(0, 20_000_000) as u32, &[], &[], &[]);
    draft.deadline = random.one_in(2).then(|| random.often_an_end(1, 200_000) as u32);
    draft.prices = (0..m).map(|_| random.often_an_end(0, 100) as u8).collect();
    for _ in 0..n {
        let length = random.often_an_end(1, 8);
        let label = (0..length).map(|_| char::from(random.one_of(LIST))).collect();
        let minutes = (0..m).map(|_| random.often_an_end(1, 2_000) as u16).collect();
        draft.tasks.push((label, minutes));
    }

    // Of the pairs in rising order, each is taken with the chance wanted in left.
    let mut left = n * (n - 1);
    let mut wanted = edges.min(left);
    for from in 0..n {
        for to in (0..n).filter(|&to| to != from) {
            if random.within(1, left) <= wanted {
                let transfer = random.often_an_end(0, 1_000) as u16;
                draft.edges.push((from as u8, to as u8, transfer));
                wanted -= 1;
            }
            left -= 1;
        }
    }
    // Last, so that all else is the same with any minimums, windows, zeros and `K`.
    if !random.one_in(4) {
        let minimum = |random: &mut Random, _| random.often_an_end(0, 10_000);
        draft.minimums = minimums(random, m as usize, minimum);
    }
    if !random.one_in(3) {
        draft.windows = windows(random, m as usize, 20_000);
    }
    if random.one_in(2) {
        single_zeros(random, &mut draft, 8);
    }
    if random.one_in(3) {
        draft = draft.with_share(share(random));
    }
    draft
}

/// The ways to damage a request that [`Damage::to`] knows.
#[derive(Clone, Copy, Debug, PartialEq, Eq)]
pub enum Damage {
    /// Some bytes at the end are gone.
    Cut,
    /// Up to four bytes more, half of the time at the end.
    Lengthened,
    /// Up to four bytes less, anywhere.
    Shortened,
    /// Up to four bytes are others.
    Changed,
    /// One number is just past an end of its range, or one byte of a label is
    /// no longer a listed one.
    OutOfRange,
    /// A record stands elsewhere.
    Moved,
    /// A record is there twice.
    Doubled,
    /// A record is gone.
    Dropped,
    /// One to four windows more, where windows may stand: out of order, inside
    /// one that is there, past a range, one too many, or good ones.
    Windows,
    /// A `K` more: beside a budget or without one, out of range, behind another, before
    /// a `D`, behind a processor's record, or a good one.
    Share,
    /// From some place on, half of the time from the front, all is noise.
    Noise,
    /// Two to four of the above.
    Several,
}

impl Damage {
    pub const ALL: [Damage; 12] = [
        Damage::Cut,
        Damage::Lengthened,
        Damage::Shortened,
        Damage::Changed,
        Damage::OutOfRange,
        Damage::Moved,
        Damage::Doubled,
        Damage::Dropped,
        Damage::Windows,
        Damage::Share,
        Damage::Noise,
        Damage::Several,
    ];

    /// Damages a request, which may be damaged already; an empty one can stay
    /// as it is. A damaged request can be a good one.
    pub fn to(self, random: &mut Random, request: &mut Vec<u8>) {
        let len = request.len() as u64;
        if len == 0 && !matches!(self, Damage::Lengthened | Damage::Noise | Damage::Several) {
            return;
        }
        match self {
            Damage::Cut => request.truncate(random.within(0, len - 1) as usize),
            Damage::Lengthened => {
                let at = if random.one_in(2) { len } else { random.within(0, len) } as usize;
                for _ in 0..random.within(1, 4) {
                    request.insert(at, any_byte(random));
                }
            }
            Damage::Shortened => {
                let at = random.within(0, len - 1) as usize;
                let end = request.len().min(at + random.within(1, 4) as usize);
                request.drain(at..end);
            }
            Damage::Changed => {
                for _ in 0..random.within(1, 4) {
                    let byte = &mut request[random.within(0, len - 1) as usize];
                    *byte = match random.within(1, 4) {
                        1 => any_byte(random),
                        2 => *byte ^ 1 << random.within(0, 7),
                        3 => byte.wrapping_add(1),
                        _ => byte.wrapping_sub(1),
                    };
                }
            }
            Damage::OutOfRange => {
                let record = any_record(random, request);
                put_out_of_range(random, request, record);
            }
            Damage::Moved => {
                let record = any_record(random, request);
                let record: Vec<u8> = request.drain(record).collect();
                let mut places: Vec<usize> = records(request).iter().map(|r| r.start).collect();
                places.push(request.len());
                let at = random.one_of(&places);
                request.splice(at..at, record);
            }
            Damage::Doubled => {
                let record = any_record(random, request);
                let copy = request[record.clone()].to_vec();
                request.splice(record.end..record.end, copy);
            }
            Damage::Dropped => {
                let record = any_record(random, request);
                request.drain(record);
            }
            Damage::Windows => more_windows(random, request),
            Damage::Share => one_share_more(random, request),
            Damage::Noise => {
                let kept = if random.one_in(2) { 0 } else { random.within(0, len) };
                request.truncate(kept as usize);
                let noise = random.within(1, 100);
                request.extend((0..noise).map(|_| random.number() as u8));
            }
            Damage::Several => {
                let others = &Damage::ALL[..Damage::ALL.len() - 1];
                for _ in 0..random.within(2, 4) {
                    random.one_of(others).to(random, request);
                }
            }
        }
    }
}

/// Any byte, half of the time a kind byte, a space or a small number.
fn any_byte(random: &mut Random) -> u8 {
    if random.one_in(2) {
        random.one_of(b"HDKPQMTWEZ \0\x01\x02")
    } else {
        random.number() as u8
    }
}

/// Where each record stands, by the sizes of the kinds. What begins with no
/// kind byte, or is cut short, is one last record.
pub fn records(request: &[u8]) -> Vec<Range<usize>> {
    let mut records = Vec::new();
    let mut at = 0;
    while at < request.len() {
        let body = match request[at] {
            b'H' => 6,
            b'D' | b'Q' | b'W' | b'E' => 4,
            b'K' | b'P' => 2,
            b'M' | b'T' => 9,
            b'Z' => 0,
            _ => request.len(),
        };
        let end = request.len().min(at + 1 + body);
        records.push(at..end);
        at = end;
    }
    records
}

/// A record of a request that is not empty; each kind in it is as likely.
fn any_record(random: &mut Random, request: &[u8]) -> Range<usize> {
    let records = records(request);
    let mut kinds: Vec<u8> = records.iter().map(|record| request[record.start]).collect();
    kinds.sort();
    kinds.dedup();
    let kind = random.one_of(&kinds);
    let mut of_kind: Vec<&Range<usize>> =
        records.iter().filter(|record| request[record.start] == kind).collect();
    of_kind.swap_remove(random.within(0, of_kind.len() as u64 - 1) as usize).clone()
}

/// Adds windows behind one that is there, made from its numbers; to a request
/// that has none, before its first task.
fn more_windows(random: &mut Random, request: &mut Vec<u8>) {
    let processors = request.get(2).copied().unwrap_or(0);
    let records = records(request);
    let whole = |record: &&Range<usize>| request[record.start] == b'M' && record.len() == 10;
    let there: Vec<&Range<usize>> = records.iter().filter(whole).collect();
    let four = |at: usize| {
        u32::from_le_bytes([request[at], request[at + 1], request[at + 2], request[at + 3]])
    };
    let (at, (j, begin, end)) = match there[..] {
        [] => {
            let first = records.iter().find(|record| request[record.start] == b'T');
            let j = random.within(0, processors.into()) as u8;
            (first.map_or(request.len(), |record| record.start), (j, 0, 5))
        }
        _ => {
            let window = there[random.within(0, there.len() as u64 - 1) as usize];
            let at = window.start;
            (window.end, (request[at + 1], four(at + 2), four(at + 6)))
        }
    };
    let later = |k: u32| end.wrapping_add(k);
    let more = match random.within(1, 10) {
        // Right behind it, one or as many as can be, and one more than that.
        1 => vec![(j, end, later(1))],
        2 => (0..3).map(|k| (j, later(k), later(k + 1))).collect(),
        3 => (0..4).map(|k| (j, later(k), later(k + 1))).collect(),
        // Inside it by a minute, at its begin, and before it.
        4 => vec![(j, end.wrapping_sub(1), later(3))],
        5 => vec![(j, begin, later(1))],
        6 => vec![(j, begin.wrapping_sub(1), begin)],
        // Of the processor before it.
        7 => vec![(j.wrapping_sub(1), later(1), later(2))],
        // Past a range, in order.
        8 => vec![random.one_of(&[
            (j, end, end),
            (j, end, 20_001),
            (j, later(2), later(1)),
            (j, end, u32::MAX),
            (processors, 0, 1),
            (255, 0, 1),
        ])],
        // Past a range, and out of order or inside it: that comes first.
        9 => vec![random.one_of(&[
            (j, begin, begin),
            (j, end.wrapping_sub(1), 20_001),
            (j.wrapping_sub(1), 5, 4),
        ])],
        // Of a processor that there is not, and then of one that there is.
        _ => vec![(255, 0, 1), (j, end, later(1))],
    };
    let more: Vec<Vec<u8>> = more.into_iter().map(|(j, b, e)| window_record(j, b, e)).collect();
    request.splice(at..at, more.concat());
}

/// Puts in a `K`, by the records that are there. Half of the time the budget is 0 then,
/// if there is a whole `H`.
fn one_share_more(random: &mut Random, request: &mut Vec<u8>) {
    let share = match random.within(1, 6) {
        1 => random.one_of(&[1_001, 1_255, 0x0400, u16::MAX]),
        _ => share(random),
    };
    let records = records(request);
    let behind = |kinds: &[u8]| {
        let last = records.iter().rfind(|record| kinds.contains(&request[record.start]));
        last.map_or(0, |record| record.end)
    };
    let (at, more) = match random.within(1, 8) {
        // Where it is due, before the `D` or another `D` behind it, and two of them.
        1..=3 => (behind(b"HD"), vec![share_record(share)]),
        4 => (behind(b"H"), vec![share_record(share)]),
        5 => (behind(b"H"), vec![share_record(share), deadline_record(14)]),
        6 => (behind(b"HDK"), vec![share_record(share); 2]),
        // Behind a processor's record, and anywhere.
        7 => (behind(b"HDKPQ"), vec![share_record(share)]),
        _ => {
            let before = random.within(0, records.len() as u64 - 1) as usize;
            (records[before].start, vec![share_record(share)])
        }
    };
    if random.one_in(2) && request[0] == b'H' && request.len() >= 7 {
        request[3..7].fill(0);
    }
    request.splice(at..at, more.concat());
}

/// Puts one field of a whole record just past an end of its range; any other
/// record stays as it is.
fn put_out_of_range(random: &mut Random, request: &mut [u8], record: Range<usize>) {
    let n = request.get(1).copied().unwrap_or(0);
    let processors = request.get(2).copied().unwrap_or(0);
    match &mut request[record] {
        [b'H', n, m, budget @ ..] if budget.len() == 4 => match random.within(1, 3) {
            1 => *n = random.one_of(&[0, 65]),
            2 => *m = random.one_of(&[0, 17]),
            // The second is out of range only beside a `K`.
            _ => budget.copy_from_slice(&random.one_of(&[20_000_001u32, 1]).to_le_bytes()),
        },
        [b'D', deadline @ ..] if deadline.len() == 4 => {
            deadline.copy_from_slice(&random.one_of(&[0, 200_001u32]).to_le_bytes())
        }
        [b'K', share @ ..] if share.len() == 2 => {
            share.copy_from_slice(&random.one_of(&[1_001, u16::MAX]).to_le_bytes())
        }
        [b'P', _, price] => *price = 101,
        [b'Q', _, price, minimum @ ..] if minimum.len() == 2 => match random.within(1, 2) {
            1 => *price = 101,
            _ => minimum.copy_from_slice(&10_001u16.to_le_bytes()),
        },
        [b'M', processor, minutes @ ..] if minutes.len() == 8 => {
            let (begin, end) = minutes.split_at_mut(4);
            match random.within(1, 4) {
                1 => *processor = random.one_of(&[processors, 255]),
                2 => begin.copy_from_slice(end),
                3 => begin.copy_from_slice(&20_000u32.to_le_bytes()),
                _ => end.copy_from_slice(&20_001u32.to_le_bytes()),
            }
        }
        [b'T', _, label @ ..] if label.len() == 8 => {
            label[random.within(0, 7) as usize] = random.one_of(b" ;@[`{/:,^.\0\n\x7f\x80\xc1\xff")
        }
        [b'W', _, _, minutes @ ..] if minutes.len() == 2 => {
            minutes.copy_from_slice(&2_001u16.to_le_bytes())
        }
        [b'E', from, to, transfer @ ..] if transfer.len() == 2 => match random.within(1, 4) {
            1 => *from = n,
            2 => *to = n,
            3 => *to = *from,
            _ => transfer.copy_from_slice(&1_001u16.to_le_bytes()),
        },
        _ => {}
    }
}
