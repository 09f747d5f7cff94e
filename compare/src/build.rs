//! Request bytes for tests and measurements. One function per record kind puts
//! any numbers into a record, right or wrong; a request is a list of records
//! joined, so that damaged ones can be written down as easily as good ones.

pub fn h(n: u8, m: u8, budget: u32) -> Vec<u8> {
    [&[b'H', n, m][..], &budget.to_le_bytes()].concat()
}

pub fn d(deadline: u32) -> Vec<u8> {
    [&b"D"[..], &deadline.to_le_bytes()].concat()
}

pub fn k(share: u16) -> Vec<u8> {
    [&b"K"[..], &share.to_le_bytes()].concat()
}

pub fn p(processor: u8, price: u8) -> Vec<u8> {
    vec![b'P', processor, price]
}

pub fn q(processor: u8, price: u8, minimum: u16) -> Vec<u8> {
    [&[b'Q', processor, price][..], &minimum.to_le_bytes()].concat()
}

pub fn m(processor: u8, begin: u32, end: u32) -> Vec<u8> {
    [&[b'M', processor][..], &begin.to_le_bytes(), &end.to_le_bytes()].concat()
}

/// The label is filled up with spaces, or cut, to 8 bytes.
pub fn t(task: u8, label: impl AsRef<[u8]>) -> Vec<u8> {
    let mut record = [&[b'T', task], label.as_ref()].concat();
    record.resize(10, b' ');
    record
}

pub fn w(task: u8, processor: u8, minutes: u16) -> Vec<u8> {
    [&[b'W', task, processor][..], &minutes.to_le_bytes()].concat()
}

pub fn e(from: u8, to: u8, transfer: u16) -> Vec<u8> {
    [&[b'E', from, to][..], &transfer.to_le_bytes()].concat()
}

pub fn z() -> Vec<u8> {
    b"Z".to_vec()
}

/// A request as numbers; n and m are the lengths of `tasks` and `prices`, at most
/// 255 each.
#[derive(Clone, Debug)]
pub struct Draft {
    /// What `H` says, whether there is a `K` or not.
    pub budget: u32,
    pub deadline: Option<u32>,
    /// In thousandths; a `K` if there is one.
    pub share: Option<u16>,
    pub prices: Vec<u8>,
    /// A processor that has a minimum here is a `Q`; any other, also one past
    /// the end of this list, is a `P`.
    pub minimums: Vec<Option<u16>>,
    /// Processor, begin, end.
    pub windows: Vec<(u8, u32, u32)>,
    /// Label, and minutes on each processor.
    pub tasks: Vec<(String, Vec<u16>)>,
    /// From, to, transfer minutes.
    pub edges: Vec<(u8, u8, u16)>,
}

impl Draft {
    /// Tasks with the labels t0, t1, ..., no deadline, no `K` and no window; every processor is a `P`.
    pub fn new(budget: u32, prices: &[u8], minutes: &[&[u16]], edges: &[(u8, u8, u16)]) -> Draft {
        let task = |(i, of_task): (usize, &&[u16])| (format!("t{i}"), of_task.to_vec());
        Draft {
            budget,
            deadline: None,
            share: None,
            prices: prices.to_vec(),
            minimums: vec![None; prices.len()],
            windows: Vec::new(),
            tasks: minutes.iter().enumerate().map(task).collect(),
            edges: edges.to_vec(),
        }
    }

    /// The same with a `K`, and a budget of 0 in `H`.
    pub fn with_share(self, share: u16) -> Draft {
        Draft { budget: 0, share: Some(share), ..self }
    }

    /// The same with these for minimums.
    pub fn with_minimums(self, minimums: &[Option<u16>]) -> Draft {
        Draft { minimums: minimums.to_vec(), ..self }
    }

    /// The same with these for windows.
    pub fn with_windows(self, windows: &[(u8, u32, u32)]) -> Draft {
        Draft { windows: windows.to_vec(), ..self }
    }

    /// The minimum of processor j, if it is a `Q`.
    pub fn minimum(&self, j: usize) -> Option<u16> {
        self.minimums.get(j).copied().flatten()
    }

    pub fn records(&self) -> Vec<Vec<u8>> {
        let mut records = vec![h(self.tasks.len() as u8, self.prices.len() as u8, self.budget)];
        records.extend(self.deadline.map(d));
        records.extend(self.share.map(k));
        let processor = |(j, &price): (u8, &u8)| match self.minimum(j.into()) {
            Some(minimum) => q(j, price, minimum),
            None => p(j, price),
        };
        records.extend((0..=255).zip(&self.prices).map(processor));
        records.extend(self.windows.iter().map(|&(j, begin, end)| m(j, begin, end)));
        for (i, (label, minutes)) in (0..=255).zip(&self.tasks) {
            records.push(t(i, label));
            records.extend((0..=255).zip(minutes).map(|(j, &time)| w(i, j, time)));
        }
        records.extend(self.edges.iter().map(|&(from, to, transfer)| e(from, to, transfer)));
        records.push(z());
        records
    }

    pub fn bytes(&self) -> Vec<u8> {
        self.records().concat()
    }

    /// All times and windows multiplied by a, prices by b, minimums and the budget by both;
    /// a `K` stays what it is.
    pub fn times(&self, a: u8, b: u8) -> Draft {
        let longer = |time: u16| time * u16::from(a);
        // What two bytes cannot hold becomes the largest that they can, which
        // is out of range too.
        let more = |minimum: u16| minimum.saturating_mul(u16::from(a) * u16::from(b));
        let later = |minute: u32| minute * u32::from(a);
        let task = |(label, minutes): &(String, Vec<u16>)| {
            (label.clone(), minutes.iter().map(|&time| longer(time)).collect())
        };
        Draft {
            budget: self.budget * u32::from(a) * u32::from(b),
            deadline: self.deadline.map(later),
            share: self.share,
            prices: self.prices.iter().map(|price| price * b).collect(),
            minimums: self.minimums.iter().map(|minimum| minimum.map(more)).collect(),
            windows: self
                .windows
                .iter()
                .map(|&(j, from, to)| (j, later(from), later(to)))
                .collect(),
            tasks: self.tasks.iter().map(task).collect(),
            edges: self.edges.iter().map(|&(from, to, c)| (from, to, longer(c))).collect(),
        }
    }
}

/// The sample S(budget) of document 01.
pub fn sample(budget: u32) -> Draft {
    let minutes: [&[u16]; 3] = [&[10, 4], &[8, 4], &[6, 2]];
    let mut draft = Draft::new(budget, &[1, 3], &minutes, &[(0, 1, 2), (0, 2, 3)]);
    for (task, label) in draft.tasks.iter_mut().zip(["prep", "left", "right"]) {
        task.0 = label.to_string();
    }
    draft
}
