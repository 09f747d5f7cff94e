//! From request bytes to tables, or to a refusal 1 to 6 with its place.

use std::ops::Range;

const EDGE_LIMIT: usize = 512;

/// "At most four windows of a processor."
const WINDOW_LIMIT: usize = 4;

/// "So a good request, one not refused with 1 to 6, has at most 9,056 bytes."
pub const MOST_BYTES: usize = 9_056;

/// "The list has sixty-four bytes."
pub(crate) const LIST: &[u8; 64] =
    b"ABCDEFGHIJKLMNOPQRSTUVWXYZabcdefghijklmnopqrstuvwxyz0123456789-_";

/// The list once more, as one yes or no for each byte value.
const LISTED: [bool; 256] = {
    let mut table = [false; 256];
    let mut i = 0;
    while i < LIST.len() {
        table[LIST[i] as usize] = true;
        i += 1;
    }
    table
};

/// Number and place of a refusal, by the table in "What comes back".
#[derive(Clone, Copy, Debug, PartialEq, Eq)]
pub struct Refusal {
    pub number: u64,
    pub place: u64,
}

#[derive(Clone, Copy, Debug, PartialEq, Eq)]
pub struct Edge {
    pub from: usize,
    pub to: usize,
    pub transfer: u32,
}

/// "The processor is down from begin on, up to end."
#[derive(Clone, Copy, Debug, PartialEq, Eq)]
pub struct Window {
    pub processor: usize,
    pub begin: u32,
    pub end: u32,
}

/// A request that passed reading.
#[derive(Clone, Debug, PartialEq, Eq)]
pub struct Workflow {
    /// n
    pub tasks: usize,
    /// m
    pub processors: usize,
    /// What `H` says; 0 beside a `K`. The one in force is [`budget`](crate::budget).
    pub budget: u32,
    pub deadline: Option<u32>,
    /// What a `K` says, in thousandths.
    pub share: Option<u32>,
    /// Price per minute of each processor.
    pub prices: Vec<u32>,
    /// The least amount that each processor bills for a task; "a `P` has minimum 0".
    pub minimums: Vec<u32>,
    /// By rising (processor, begin), as the request gives them.
    pub windows: Vec<Window>,
    /// Task i on processor j stands at `i * processors + j`.
    pub minutes: Vec<u32>,
    /// Where each label, without its spaces, stands in the request.
    pub labels: Vec<Range<usize>>,
    /// By rising (from, to), as the request gives them.
    pub edges: Vec<Edge>,
}

/// Reads a whole request. "Records are checked from the front and the first
/// fault ends reading."
pub fn read(request: &[u8]) -> Result<Workflow, Refusal> {
    let mut records = Records { bytes: request, next: 0 };

    let (at, &[n, m, b0, b1, b2, b3]) = records.take::<6>(b'H')?;
    let budget = u32::from_le_bytes([b0, b1, b2, b3]);
    require((1..=64).contains(&n), 4, at)?;
    require((1..=16).contains(&m), 4, at)?;
    require(budget <= 20_000_000, 4, at)?;

    let mut deadline = None;
    if records.kind() == Some(b'D') {
        let (at, &body) = records.take::<4>(b'D')?;
        let minutes = u32::from_le_bytes(body);
        require((1..=200_000).contains(&minutes), 4, at)?;
        deadline = Some(minutes);
    }

    let mut share = None;
    if records.kind() == Some(b'K') {
        let (at, &body) = records.take::<2>(b'K')?;
        let thousandths = u16::from_le_bytes(body);
        require(thousandths <= 1_000, 4, at)?;
        // "A nonzero budget in `H` beside a `K`, at the `K` record."
        require(budget == 0, 4, at)?;
        share = Some(thousandths.into());
    }

    let mut prices = Vec::with_capacity(m.into());
    let mut minimums = Vec::with_capacity(m.into());
    for j in 0..m {
        // "A `Q` may stand wherever a `P` is due."
        let (at, [processor, price], minimum) = if records.kind() == Some(b'Q') {
            let (at, &[processor, price, m0, m1]) = records.take::<4>(b'Q')?;
            (at, [processor, price], u16::from_le_bytes([m0, m1]))
        } else {
            let (at, &body) = records.take::<2>(b'P')?;
            (at, body, 0)
        };
        require(processor == j, 3, at)?;
        require(price <= 100, 4, at)?;
        require(minimum <= 10_000, 4, at)?;
        prices.push(price.into());
        minimums.push(minimum.into());
    }

    let mut windows: Vec<Window> = Vec::new();
    while records.kind() == Some(b'M') {
        let (at, &[processor, b0, b1, b2, b3, e0, e1, e2, e3]) = records.take::<9>(b'M')?;
        let window = Window {
            processor: processor.into(),
            begin: u32::from_le_bytes([b0, b1, b2, b3]),
            end: u32::from_le_bytes([e0, e1, e2, e3]),
        };
        // "Of edges and windows 3 is tested on the bytes as they stand, before any range."
        require(windows.last().is_none_or(|last| last.may_precede(&window)), 3, at)?;
        require(processor < m, 4, at)?;
        require(window.begin < window.end, 4, at)?;
        require(window.end <= 20_000, 4, at)?;
        // "A processor's fifth window comes after its fields."
        let there = windows.iter().filter(|before| before.processor == window.processor).count();
        require(there < WINDOW_LIMIT, 4, at)?;
        windows.push(window);
    }

    let mut labels = Vec::with_capacity(n.into());
    let mut minutes = Vec::with_capacity(usize::from(n) * usize::from(m));
    for i in 0..n {
        let (at, [task, label @ ..]) = records.take::<9>(b'T')?;
        require(*task == i, 3, at)?;
        let length = label_length(label).ok_or(refusal(5, at))?;
        // The label follows the kind byte and the task number.
        labels.push(at + 2..at + 2 + length);
        for j in 0..m {
            let (at, &[task, processor, w0, w1]) = records.take::<4>(b'W')?;
            let time = u16::from_le_bytes([w0, w1]);
            require(task == i && processor == j, 3, at)?;
            require(time <= 2_000, 4, at)?;
            minutes.push(time.into());
        }
    }

    let mut edges: Vec<Edge> = Vec::new();
    while records.kind() == Some(b'E') {
        let (at, &[from, to, c0, c1]) = records.take::<4>(b'E')?;
        let transfer = u16::from_le_bytes([c0, c1]);
        let ends = (usize::from(from), usize::from(to));
        // "Inside a record: kind, whole body, the 513th edge, 3, 4 in field order, 5."
        require(edges.len() < EDGE_LIMIT, 4, at)?;
        require(edges.last().is_none_or(|last| (last.from, last.to) < ends), 3, at)?;
        require(from < n && to < n && from != to, 4, at)?;
        require(transfer <= 1_000, 4, at)?;
        edges.push(Edge { from: ends.0, to: ends.1, transfer: transfer.into() });
    }

    records.take::<0>(b'Z')?;
    require(records.next == request.len(), 6, records.next)?;

    Ok(Workflow {
        tasks: n.into(),
        processors: m.into(),
        budget,
        deadline,
        share,
        prices,
        minimums,
        windows,
        minutes,
        labels,
        edges,
    })
}

impl Window {
    /// "Rising by processor, then begin, and none that begins before the same
    /// processor's previous window ends."
    fn may_precede(&self, next: &Window) -> bool {
        let rising = (self.processor, self.begin) < (next.processor, next.begin);
        rising && (self.processor != next.processor || self.end <= next.begin)
    }
}

/// The request and the offset of the record due next.
struct Records<'a> {
    bytes: &'a [u8],
    next: usize,
}

impl<'a> Records<'a> {
    /// The kind byte of the next record, if there is one.
    fn kind(&self) -> Option<u8> {
        self.bytes.get(self.next).copied()
    }

    /// Takes the record due, of this kind and a body of N bytes: its offset and
    /// its body. Without a kind byte the offset is the input's length.
    fn take<const N: usize>(&mut self, kind: u8) -> Result<(usize, &'a [u8; N]), Refusal> {
        let at = self.next;
        let (&found, rest) = self.bytes[at..].split_first().ok_or(refusal(1, at))?;
        require(found == kind, 2, at)?;
        let body = rest.first_chunk::<N>().ok_or(refusal(1, at))?;
        self.next = at + 1 + N;
        Ok((at, body))
    }
}

/// "A label is 1 to 8 bytes of the list, then spaces to the end of the field."
fn label_length(field: &[u8]) -> Option<usize> {
    let listed = |&byte: &u8| LISTED[usize::from(byte)];
    let length = field.iter().take_while(|byte| listed(byte)).count();
    let good = length >= 1 && field[length..].iter().all(|&byte| byte == b' ');
    good.then_some(length)
}

fn refusal(number: u64, place: usize) -> Refusal {
    Refusal { number, place: place as u64 }
}

fn require(holds: bool, number: u64, place: usize) -> Result<(), Refusal> {
    if holds {
        Ok(())
    } else {
        Err(refusal(number, place))
    }
}
