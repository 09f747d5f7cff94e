//! The Rust wrapper against the independent program: plans, texts, what is told of starts, labels and readings of good and
//! damaged requests.
use compare::random::{sized, windows_of, Damage, Random};
use compare::shapes::{shape, shaped, starts, SHAPES};
use compare::{Answer, Method, Row, MOST_BYTES};
use std::fs;
use zabgurin::{Costs, Refusal, Summary, Why, MOST_REQUEST, MOST_TASKS, MOST_TEXT};

/// What the independent program says by this method, in the wrapper's words.
fn plan(method: Method, request: &[u8], rows: &mut [Row]) -> Result<Summary, Refusal> {
    match compare::plan_by(method, request, rows) {
        Answer::Planned { n, length, cost, left } => Ok(Summary { tasks: n, length, cost, left }),
        Answer::Refused { number, place } => Err(Refusal { number, place }),
    }
}

/// What it says of a start, in the wrapper's words.
fn why(request: &[u8], task: usize, start: u64) -> Result<Why, Refusal> {
    use compare::Why as Told;
    match compare::why_not(request, task, start) {
        Ok(Told::Data { from, minute }) => Ok(Why::LateData { from, minute }),
        Ok(Told::Window { begin, end }) => Ok(Why::InWindow { begin, end }),
        Ok(Told::Row { task, start: begin, finish: end }) => {
            Ok(Why::BesideRow { task, begin, end })
        }
        Ok(Told::Own { start }) => Ok(Why::OwnStart { start }),
        Ok(Told::NoTask { tasks }) => Ok(Why::NoTask { tasks }),
        Err(compare::Refusal { number, place }) => Err(Refusal { number, place }),
    }
}

/// The wrapper's plan, text and printer for a method.
type Asked = (
    Method,
    fn(&[u8]) -> Result<zabgurin::Plan, Refusal>,
    fn(&[u8]) -> Vec<u8>,
    fn(&[u8], &mut [u8]) -> Result<usize, usize>,
);
const ASKED: [Asked; 3] = [
    (Method::Hbcs, zabgurin::plan, zabgurin::text, zabgurin::print),
    (Method::Cheapest, zabgurin::cheapest, zabgurin::text_cheapest, zabgurin::print_cheapest),
    (Method::Heft, zabgurin::heft, zabgurin::text_heft, zabgurin::print_heft),
];

fn agree(request: &[u8]) {
    for (method, plan_by, text_by, print_by) in ASKED {
        let mut rows = [Row::default(); 64];
        let theirs = plan(method, request, &mut rows);
        let ours = plan_by(request);
        let summary = ours.as_ref().map(|plan| plan.summary);
        assert_eq!(summary, theirs.as_ref().copied(), "{method:?}: {request:?}");
        for (ours, theirs) in ours.iter().flat_map(|plan| &plan.rows).zip(&rows) {
            let ours = Row {
                processor: ours.processor,
                start: ours.start,
                finish: ours.finish,
                cost: ours.cost,
            };
            assert_eq!(ours, *theirs, "{method:?}: {request:?}");
        }
        let text = compare::text_by(method, request);
        assert_eq!(text_by(request), text, "{method:?}: {request:?}");
        let mut short = vec![b'#'; text.len() - 1];
        assert_eq!(print_by(request, &mut short), Err(text.len()));
        assert!(short.iter().all(|&b| b == b'#'), "{method:?}: {request:?}");
    }
    let range = compare::range(request);
    let range = range.map(|costs| Costs { cheapest: costs.cheapest, heft: costs.heft });
    let range = range.map_err(|refusal| Refusal { number: refusal.number, place: refusal.place });
    assert_eq!(zabgurin::range(request), range, "{request:?}");
    let starts = starts(request);
    for &(task, start) in starts.iter().step_by(1 + starts.len() / 6) {
        let told = why(request, task, start);
        assert_eq!(zabgurin::why_not(request, task, start), told, "{task} at {start}: {request:?}");
    }
    for task in [0, 1, 7, 63, 64, usize::MAX] {
        assert_eq!(zabgurin::label(request, task), compare::label(request, task), "{request:?}");
    }
    let (ours, theirs) = (zabgurin::read(request), compare::read(request));
    let number = theirs.as_ref().map_or_else(|refusal| refusal.number, |_| 0);
    assert_eq!(ours.number, number, "{request:?}");
    let share = theirs.ok().and_then(|workflow| workflow.share);
    let given = (ours.share_given, ours.share);
    assert_eq!(given, (share.is_some().into(), share.unwrap_or(0).into()), "{request:?}");
}

#[test]
fn good_and_damaged_requests() {
    let mut random = Random(0x57a9_9e45_0000_0001);
    for k in 0..2 * SHAPES {
        let (n, m) = (random.often_an_end(1, 64) as usize, random.often_an_end(1, 16) as usize);
        let mut request = shaped(&mut random, (n, m), shape(k)).bytes();
        if k % 2 == 0 {
            Damage::ALL[k / 2 % Damage::ALL.len()].to(&mut random, &mut request);
        }
        agree(&request);
    }
}

/// A request of the most tasks and the most bytes passes; one that is longer does not.
#[test]
fn the_most() {
    assert_eq!(MOST_REQUEST, MOST_BYTES);
    let mut random = Random(0x57a9_9e45_0000_0002);
    let mut draft = sized(&mut random, MOST_TASKS as u64, 16, 512);
    draft.deadline = Some(200_000);
    draft.minimums = vec![Some(10_000); 16];
    let four = |j| windows_of(&mut random, j, 4, (0, 20_000));
    draft.windows = (0..16).flat_map(four).collect();
    let mut request = draft.with_share(1_000).bytes();
    assert_eq!(request.len(), MOST_REQUEST);
    assert_eq!(zabgurin::read(&request).number, 0);
    agree(&request);
    // One byte more; and an edge more, which stands in part behind the most bytes.
    request.push(b'Z');
    agree(&request);
    assert_eq!(zabgurin::read(&request).number, 6);
    request.splice(MOST_REQUEST - 1.., [b'E', 63, 62, 0, 0]);
    agree(&request);
    assert_eq!(zabgurin::read(&request).number, 4);
}

/// The header has the same numbers by the same names.
#[test]
fn the_header_says_the_same() {
    let header = concat!(env!("CARGO_MANIFEST_DIR"), "/../../include/zabgurin.h");
    let header = fs::read_to_string(header).expect("the header is there");
    let numbers = [("TASKS", MOST_TASKS), ("TEXT", MOST_TEXT), ("REQUEST", MOST_REQUEST)];
    for (name, number) in numbers {
        let line = format!("enum {{ ZABGURIN_MOST_{name} = {number} }};");
        assert!(header.lines().any(|found| found == line), "{line}");
    }
}

#[test]
fn nothing_lent_and_nothing_sent() {
    agree(&[]);
    let none = || &mut [] as &mut [u64];
    for plan_into in [zabgurin::plan_into, zabgurin::cheapest_into, zabgurin::heft_into] {
        let sample = compare::build::sample(28).bytes();
        let refused = plan_into(&sample, none(), none(), none(), none());
        assert_eq!(refused, Err(Refusal { number: 7, place: 3 }));
        let refused = plan_into(&[], none(), none(), none(), none());
        assert_eq!(refused, Err(Refusal { number: 1, place: 0 }));
    }
    for (_, _, _, print) in ASKED {
        assert_eq!(print(&[], &mut []), Err(b"no 1 0\n".len()));
    }
    assert_eq!(zabgurin::range(&[]), Err(Refusal { number: 1, place: 0 }));
    assert_eq!(zabgurin::why_not(&[], 0, 0), Err(Refusal { number: 1, place: 0 }));
    assert!(zabgurin::listed(b'-') && !zabgurin::listed(b';'));
    assert_eq!(zabgurin::label_len(b"prep    ", 0), 4);
}
