//! The functions that the proved code exports, asked through the driver, and the same label checks in plain Rust to
//! hold them against.
use compare::{Method, Why};
use std::io::{self, Read, Write};
use std::process::{Child, Command, Stdio};

pub mod frames;
pub use zabgurin::Reading;

/// A part of the request.
#[repr(C)]
struct Part {
    begin: usize,
    length: usize,
}

impl Part {
    /// Panics if it is no part of the request.
    fn of(self, request: &[u8]) -> &[u8] {
        let Part { begin, length } = self;
        begin.checked_add(length).and_then(|end| request.get(begin..end)).unwrap_or_else(|| {
            panic!("{length} bytes at {begin} are no part of {} bytes: {request:?}", request.len())
        })
    }
}

/// How a request is answered: the refusal's number and place, or number 0 and the summary of a plan. Whatever does not
/// belong to the answer is 0.
#[repr(C)]
#[derive(Clone, Copy, Debug, Default, PartialEq, Eq)]
pub struct Answer {
    pub number: u64,
    pub place: u64,
    pub tasks: u64,
    pub length: u64,
    pub cost: u64,
    pub left: u64,
}

impl From<compare::Answer> for Answer {
    fn from(answer: compare::Answer) -> Answer {
        match answer {
            compare::Answer::Planned { n, length, cost, left } => {
                Answer { tasks: n, length, cost, left, ..Answer::default() }
            }
            compare::Answer::Refused { number, place } => {
                Answer { number, place, ..Answer::default() }
            }
        }
    }
}

/// What the cheapest plan and the HEFT plan cost, or the refusal's number and place. Whatever does not belong to the
/// answer is 0.
#[repr(C)]
#[derive(Clone, Copy, Debug, Default, PartialEq, Eq)]
pub struct Costs {
    pub number: u64,
    pub place: u64,
    pub cheapest: u64,
    pub heft: u64,
}

impl From<Result<compare::Costs, compare::Refusal>> for Costs {
    fn from(range: Result<compare::Costs, compare::Refusal>) -> Costs {
        match range {
            Ok(compare::Costs { cheapest, heft }) => Costs { cheapest, heft, ..Costs::default() },
            Err(compare::Refusal { number, place }) => Costs { number, place, ..Costs::default() },
        }
    }
}

/// What stands against a start of a task, or the refusal's number and place. Whatever does not belong to the answer is 0.
#[repr(C)]
#[derive(Clone, Copy, Debug, Default, PartialEq, Eq)]
pub struct Reason {
    pub number: u64,
    pub place: u64,
    pub reason: u64,
    pub task: u64,
    pub begin: u64,
    pub end: u64,
}

impl From<Result<Why, compare::Refusal>> for Reason {
    fn from(told: Result<Why, compare::Refusal>) -> Reason {
        let reason =
            |reason, task, begin, end| Reason { number: 0, place: 0, reason, task, begin, end };
        match told {
            Ok(Why::Data { from, minute }) => reason(1, from, minute, 0),
            Ok(Why::Window { begin, end }) => reason(2, 0, begin, end),
            Ok(Why::Row { task, start, finish }) => reason(3, task, start, finish),
            Ok(Why::Own { start }) => reason(4, 0, start, 0),
            Ok(Why::NoTask { tasks }) => reason(5, tasks, 0, 0),
            Err(compare::Refusal { number, place }) => {
                Reason { number, place, ..Reason::default() }
            }
        }
    }
}

/// A request, with tasks and starts to ask of.
pub type Starts<'a> = (&'a [u8], Vec<(usize, u64)>);

/// What a plan can be asked by.
pub const METHODS: [Method; 3] = [Method::Hbcs, Method::Cheapest, Method::Heft];

/// The four buffers of a plan: processors, starts, finishes and costs. Row i is in the numbers at i.
pub type Columns = [Vec<u64>; 4];

/// What the driver's buffers of these lengths hold before a plan.
pub fn columns_before(lengths: [usize; 4]) -> Columns {
    [0, 1, 2, 3].map(|b| (0..lengths[b]).map(|k| (0xfeed_0000 + 0x1_0000 * b + k) as u64).collect())
}

/// A running `driver.c`. It is asked in batches, since each batch is one round trip; the answers are in the order of
/// the questions. Panics where the driver ends before its input does, or not well.
pub struct Driver(Child);

/// A slice, and the kind and the argument of each question about it.
type Asked<'a> = (&'a [u8], Vec<(u64, u64)>);

// The kinds of questions, as the driver numbers them.
const LISTED: u64 = 0;
const LABEL_LEN: u64 = 1;
const READ: u64 = 2;
const LABEL: u64 = 3;
const PLAN: u64 = 4;
const PRINT: u64 = 7;
const RANGE: u64 = 10;
const START: u64 = 11;
const WHY: u64 = 12;
const NOTHING: u64 = 13;
const DEEPEST: u64 = 14;
const TAKEN: u64 = 15;

/// How far behind the first planner, or printer, the one of this method is.
fn behind(method: Method) -> u64 {
    match method {
        Method::Hbcs => 0,
        Method::Cheapest => 1,
        Method::Heft => 2,
    }
}

/// A call of the library whose stack is measured: with a byte, a place, a task; by a method, so many rows in each
/// buffer, so much room for the text; with a task below 65,536 and a start.
#[derive(Clone, Copy, Debug, PartialEq, Eq)]
pub enum Call {
    Listed(u8),
    LabelLen(usize),
    Read,
    Label(usize),
    Plan(Method, usize),
    Print(Method, usize),
    Range,
    Why(usize, usize),
}

impl Call {
    /// The name of the function.
    pub fn name(self) -> &'static str {
        match self {
            Call::Listed(_) => "zabgurin_listed",
            Call::LabelLen(_) => "zabgurin_label_len",
            Call::Read => "zabgurin_read",
            Call::Label(_) => "zabgurin_label",
            Call::Plan(Method::Hbcs, _) => "zabgurin_plan",
            Call::Plan(Method::Cheapest, _) => "zabgurin_cheapest",
            Call::Plan(Method::Heft, _) => "zabgurin_heft",
            Call::Print(Method::Hbcs, _) => "zabgurin_print",
            Call::Print(Method::Cheapest, _) => "zabgurin_print_cheapest",
            Call::Print(Method::Heft, _) => "zabgurin_print_heft",
            Call::Range => "zabgurin_range",
            Call::Why(..) => "zabgurin_why",
        }
    }

    fn question(self) -> (u64, u64) {
        let (kind, argument) = match self {
            Call::Listed(b) => (LISTED, b.into()),
            Call::LabelLen(at) => (LABEL_LEN, at),
            Call::Read => (READ, 0),
            Call::Label(task) => (LABEL, task),
            Call::Plan(method, rows) => (PLAN + behind(method), rows),
            Call::Print(method, room) => (PRINT + behind(method), room),
            Call::Range => (RANGE, 0),
            Call::Why(task, start) => (WHY, task | start << 16),
        };
        (TAKEN, kind | (argument as u64) << 8)
    }
}

impl Driver {
    pub fn start() -> Driver {
        let mut words = env!("DRIVER").split('\u{1f}');
        let mut command = Command::new(words.next().expect("a program to run"));
        command.args(words).stdin(Stdio::piped()).stdout(Stdio::piped());
        Driver(command.spawn().unwrap_or_else(|error| panic!("{command:?}: {error}")))
    }

    /// Whether each byte stands in the list of what a label may hold.
    pub fn listed(&mut self, bytes: &[u8]) -> Vec<bool> {
        let questions = bytes.iter().map(|&b| (LISTED, b.into())).collect();
        let mut answers = self.ask(&[(&[], questions)]);
        let listed = |answer| match answer {
            0 => false,
            1 => true,
            other => panic!("{other} is no bool"),
        };
        bytes.iter().map(|_| listed(answers.word())).collect()
    }

    /// For slices and some places of each: the length, without its spaces, of the label in the eight bytes there;
    /// 0 where no label stands.
    pub fn label_lens(&mut self, slices: &[(&[u8], Vec<usize>)]) -> Vec<Vec<usize>> {
        let question = |&at: &usize| (LABEL_LEN, at as u64);
        let batch: Vec<_> = slices
            .iter()
            .map(|(slice, ats)| (*slice, ats.iter().map(question).collect()))
            .collect();
        let mut answers = self.ask(&batch);
        slices.iter().map(|(_, ats)| ats.iter().map(|_| answers.size()).collect()).collect()
    }

    /// For requests and some tasks of each: what the reader makes of the request, and the label of each task without
    /// its spaces, as a part of the request; the empty part at the start for a request refused in reading, or a task
    /// not below n. Panics if an answer is no part of the request.
    pub fn read<'a>(
        &mut self,
        requests: &[(&'a [u8], Vec<usize>)],
    ) -> Vec<(Reading, Vec<&'a [u8]>)> {
        let question = |&task: &usize| (LABEL, task as u64);
        let questions = |tasks: &Vec<usize>| {
            [(READ, 0)].into_iter().chain(tasks.iter().map(question)).collect()
        };
        let batch: Vec<_> =
            requests.iter().map(|(request, tasks)| (*request, questions(tasks))).collect();
        let mut answers = self.ask(&batch);
        requests
            .iter()
            .map(|&(request, ref tasks)| {
                let reading = answers.reading();
                (reading, tasks.iter().map(|_| answers.part().of(request)).collect())
            })
            .collect()
    }

    /// For requests, each with four buffers of these lengths that hold what [`columns_before`] says: the answer by this
    /// method, and the buffers after the call.
    pub fn plan(
        &mut self,
        method: Method,
        requests: &[(&[u8], [usize; 4])],
    ) -> Vec<(Answer, Columns)> {
        let argument = |lengths: &[usize; 4]| {
            lengths.iter().rev().fold(0, |argument, &length| argument << 16 | length as u64)
        };
        let batch: Vec<_> = requests
            .iter()
            .map(|(request, lengths)| (*request, vec![(PLAN + behind(method), argument(lengths))]))
            .collect();
        let mut answers = self.ask(&batch);
        requests
            .iter()
            .map(|(_, lengths)| {
                let answer = answers.answer();
                (answer, lengths.map(|length| (0..length).map(|_| answers.word()).collect()))
            })
            .collect()
    }

    /// For requests, each with so much room for its text by this method, full of `#`: how many bytes the text has, and
    /// the room after the call.
    pub fn print(&mut self, method: Method, requests: &[(&[u8], usize)]) -> Vec<(usize, Vec<u8>)> {
        let question = |room: usize| vec![(PRINT + behind(method), room as u64)];
        let batch: Vec<_> =
            requests.iter().map(|&(request, room)| (request, question(room))).collect();
        let mut answers = self.ask(&batch);
        requests
            .iter()
            .map(|&(_, room)| (answers.size(), (0..room).map(|_| answers.word() as u8).collect()))
            .collect()
    }

    /// For each request what the cheapest plan and the HEFT plan cost, or the refusal.
    pub fn range(&mut self, requests: &[&[u8]]) -> Vec<Costs> {
        let batch: Vec<_> = requests.iter().map(|&request| (request, vec![(RANGE, 0)])).collect();
        let mut answers = self.ask(&batch);
        requests.iter().map(|_| answers.costs()).collect()
    }

    /// For requests and some tasks and starts of each: why the task does not start then.
    pub fn why(&mut self, requests: &[Starts]) -> Vec<Vec<Reason>> {
        let questions = |&(task, start): &(usize, u64)| [(START, start), (WHY, task as u64)];
        let batch: Vec<_> = requests
            .iter()
            .map(|(request, starts)| (*request, starts.iter().flat_map(questions).collect()))
            .collect();
        let mut answers = self.ask(&batch);
        requests
            .iter()
            .map(|(_, starts)| starts.iter().map(|_| answers.reason()).collect())
            .collect()
    }

    /// What comes back for no request and no buffers, all of them null: the answers by each method, the range, why task 0
    /// does not start at 0, the reading, where task 0's label is and how long, and the lengths of the texts and of a label
    /// at 0.
    pub fn nothing(&mut self) -> ([Answer; 3], Costs, Reason, Reading, [usize; 6]) {
        let mut answers = self.ask(&[(&[], vec![(NOTHING, 0)])]);
        let by_method = METHODS.map(|_| answers.answer());
        let (range, reason) = (answers.costs(), answers.reason());
        (by_method, range, reason, answers.reading(), [0; 6].map(|_| answers.size()))
    }

    /// For a request and calls with it: how many bytes of stack each call takes, and the first word of its answer. The
    /// call's return address is counted, and what memcpy and memset of the C library take.
    pub fn taken(&mut self, request: &[u8], calls: &[Call]) -> Vec<(usize, u64)> {
        let questions = calls.iter().map(|call| call.question()).collect();
        let mut answers = self.ask(&[(request, questions)]);
        calls.iter().map(|_| (answers.size(), answers.word())).collect()
    }

    /// The most bytes of stack that were in use at any time, those of the thread itself and of the driver included.
    pub fn deepest(&mut self) -> usize {
        self.ask(&[(&[], vec![(DEEPEST, 0)])]).size()
    }

    fn ask(&mut self, batch: &[Asked]) -> Answers {
        let mut bytes = vec![0; 8];
        for (slice, questions) in batch {
            bytes.extend((slice.len() as u64).to_le_bytes());
            bytes.extend((questions.len() as u64).to_le_bytes());
            bytes.extend(*slice);
            for (kind, argument) in questions {
                bytes.extend(kind.to_le_bytes());
                bytes.extend(argument.to_le_bytes());
            }
        }
        let length = bytes.len() as u64 - 8;
        bytes[..8].copy_from_slice(&length.to_le_bytes());
        let answers = self.trip(&bytes).unwrap_or_else(|error| {
            let status = self.0.wait().expect("the driver has a status");
            if let [(slice, _)] = batch {
                panic!("the driver ended with {status} ({error}); asked about {slice:?}");
            }
            // Which slice was it? Each alone.
            for one in batch {
                Driver::start().ask(std::slice::from_ref(one));
            }
            panic!("the driver ended with {status} ({error}), but does not for any slice alone");
        });
        Answers { bytes: answers, at: 0 }
    }

    fn trip(&mut self, batch: &[u8]) -> io::Result<Vec<u8>> {
        let Child { stdin: Some(to), stdout: Some(from), .. } = &mut self.0 else {
            unreachable!("both are pipes until the end")
        };
        to.write_all(batch)?;
        let mut length = [0; 8];
        from.read_exact(&mut length)?;
        let mut answers = vec![0; u64::from_le_bytes(length) as usize];
        from.read_exact(&mut answers)?;
        Ok(answers)
    }
}

impl Drop for Driver {
    /// The end of its input ends the driver.
    fn drop(&mut self) {
        drop(self.0.stdin.take());
        let status = self.0.wait().expect("the driver has a status");
        assert!(status.success() || std::thread::panicking(), "the driver ended with {status}");
    }
}

/// What the driver wrote for one batch, and how much of it is taken.
struct Answers {
    bytes: Vec<u8>,
    at: usize,
}

impl Answers {
    fn word(&mut self) -> u64 {
        let word = self.bytes[self.at..self.at + 8].try_into().expect("eight bytes");
        self.at += 8;
        u64::from_le_bytes(word)
    }

    fn size(&mut self) -> usize {
        self.word().try_into().expect("a processor with 64 bits")
    }

    fn part(&mut self) -> Part {
        Part { begin: self.size(), length: self.size() }
    }

    fn answer(&mut self) -> Answer {
        Answer {
            number: self.word(),
            place: self.word(),
            tasks: self.word(),
            length: self.word(),
            cost: self.word(),
            left: self.word(),
        }
    }

    fn costs(&mut self) -> Costs {
        Costs { number: self.word(), place: self.word(), cheapest: self.word(), heft: self.word() }
    }

    fn reason(&mut self) -> Reason {
        Reason {
            number: self.word(),
            place: self.word(),
            reason: self.word(),
            task: self.word(),
            begin: self.word(),
            end: self.word(),
        }
    }

    fn reading(&mut self) -> Reading {
        Reading {
            number: self.word(),
            place: self.size(),
            tasks: self.size(),
            processors: self.size(),
            budget: self.word(),
            deadline: self.word(),
            share_given: self.word(),
            share: self.word(),
            prices_at: self.size(),
            windows_at: self.size(),
            windows: self.size(),
            tasks_at: self.size(),
            edges_at: self.size(),
            edges: self.size(),
        }
    }
}

/// The same checks as range tests, the way plain Rust writes them.
pub mod plain {
    pub fn listed(b: u8) -> bool {
        b.is_ascii_uppercase()
            || b.is_ascii_lowercase()
            || b.is_ascii_digit()
            || b == b'-'
            || b == b'_'
    }

    pub fn label_len(request: &[u8], at: usize) -> usize {
        let Some(field) = at.checked_add(8).and_then(|end| request.get(at..end)) else {
            return 0;
        };
        let len = field.iter().take_while(|&&b| listed(b)).count();
        if field[len..].iter().all(|&b| b == b' ') {
            len
        } else {
            0
        }
    }
}
