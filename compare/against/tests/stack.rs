//! How much stack each function of the library takes: measured on the largest requests, and added up from its frames.
//! The header and docs/PROMISES.md are held to it.
use against::frames::Library;
use against::{Call, Driver, METHODS};
use compare::build::Draft;
use compare::random::{windows_of, Damage, Random};
use compare::shapes::{
    shaped, Budget, Deadline, Graph, Markers, Minimums, Numbers, Share, Windows,
};
use compare::shapes::{BUDGETS, DEADLINES, GRAPHS, MARKERS, MINIMUMS, NUMBERS, SHARES, WINDOWS};
use compare::{Method, MOST_BYTES, REFUSALS};
use std::collections::{BTreeMap, BTreeSet};
use std::fs;
use std::io::{self, Write};
use std::path::Path;
use std::sync::OnceLock;
use zabgurin::{MOST_TASKS, MOST_TEXT};

/// The most that a function may take, and the most of its 32 KiB that the driver's thread may, with all that it does.
const MOST: usize = 16 << 10;
const MOST_OF_THREAD: usize = 24 << 10;

/// What memcpy and memset of a C library may take beside the return address. Those that were tried take nothing.
const C_LIBRARY: usize = 128;

/// How much more than is measured here docs/PROMISES.md may say, since machines differ.
const ROOM: usize = 256;

/// Functions, and how many bytes of stack each takes.
type Figures = BTreeMap<String, usize>;

/// Says a line in the log of a test that passes, too. What `println!` says is kept back there.
fn say(line: &str) {
    writeln!(io::stdout(), "{line}").expect("an output");
}

/// A number with commas, as the documents write it.
fn commas(number: usize) -> String {
    match number {
        0..=999 => number.to_string(),
        _ => format!("{},{:03}", commas(number / 1_000), number % 1_000),
    }
}

fn document(name: &str) -> String {
    let path = Path::new(env!("CARGO_MANIFEST_DIR")).join("../..").join(name);
    fs::read_to_string(path).unwrap_or_else(|error| panic!("{name}: {error}"))
}

/// Requests of 64 tasks and 16 processors: of every shape, the dense ones with 512 edges, with one sort of minimums, of
/// windows, of markers and of shares after the other; one of as many bytes as a request can have; and two with cycles through all
/// tasks. In the first of these each task waits for the one before it, in the second for the eight before it: 512 edges.
fn largest(random: &mut Random) -> Vec<Draft> {
    let mut drawn = |shape| shaped(random, (MOST_TASKS, 16), shape);
    let mut drafts = Vec::new();
    for graph in GRAPHS {
        for numbers in NUMBERS {
            for budget in BUDGETS {
                for deadline in DEADLINES {
                    // One further for each of the numbers, so that a sort does not always have the same deadline.
                    let turn = drafts.len() + drafts.len() / (BUDGETS.len() * DEADLINES.len());
                    let (least, down) = (turn % MINIMUMS.len(), turn % WINDOWS.len());
                    let (least, down) = (MINIMUMS[least], WINDOWS[down]);
                    let markers = MARKERS[turn % MARKERS.len()];
                    let share = SHARES[turn % SHARES.len()];
                    let shape = (graph, numbers, budget, deadline, least, down, markers, share);
                    let mut draft = drawn(shape);
                    while graph == Graph::Dense && draft.edges.len() < 512 {
                        draft = drawn(shape);
                    }
                    drafts.push(draft);
                }
            }
        }
    }
    let mut most =
        drafts.iter().find(|draft| draft.edges.len() == 512).expect("a dense one").clone();
    most.deadline = Some(200_000);
    most.minimums = vec![Some(10_000); 16];
    let mut windows = Random(0x57ac_5eed_0000_0002);
    let four = |j| windows_of(&mut windows, j, 4, (0, 20_000));
    most.windows = (0..16).flat_map(four).collect();
    most = most.with_share(1_000);
    assert_eq!(most.bytes().len(), MOST_BYTES);
    drafts.push(most);
    for before in [1, 8] {
        let (budget, deadline) = (Budget::Plenty, Deadline::None);
        let (least, down, markers) = (Minimums::None, Windows::None, Markers::None);
        let (graph, numbers, share) = (Graph::Loose, Numbers::Any, Share::None);
        let mut draft = drawn((graph, numbers, budget, deadline, least, down, markers, share));
        let edges = (0..64).flat_map(|i| (1..=before).map(move |k| (i, (i + k) % 64, 1_000)));
        draft.edges = edges.collect();
        draft.edges.sort();
        drafts.push(draft);
    }
    drafts
}

/// What is met on the largest requests and on damaged ones: the most that each function takes, and that the driver's
/// thread has in use, with all that runs there.
struct Measured {
    functions: Figures,
    thread: usize,
}

fn measured() -> &'static Measured {
    static MEASURED: OnceLock<Measured> = OnceLock::new();
    MEASURED.get_or_init(measure)
}

fn measure() -> Measured {
    let (mut driver, mut functions) = (Driver::start(), Figures::new());
    let mut answers = |request: &[u8], calls: &[Call]| -> Vec<u64> {
        let mut answers = Vec::new();
        for (call, (bytes, answer)) in calls.iter().zip(driver.taken(request, calls)) {
            let most = functions.entry(call.name().to_string()).or_default();
            *most = bytes.max(*most);
            answers.push(answer);
        }
        answers
    };
    let few = Call::Plan(Method::Hbcs, MOST_TASKS - 1);
    let label = Call::Label(MOST_TASKS - 1);
    // By HBCS first, with all rows and with one less.
    let mut calls = vec![Call::Plan(Method::Hbcs, MOST_TASKS), few];
    calls.extend(METHODS.map(|method| Call::Plan(method, MOST_TASKS)));
    calls.extend(METHODS.map(|method| Call::Print(method, MOST_TEXT)));
    calls.extend([Call::Range, Call::Read, label]);
    // Of a start at 0, of one that is later than most data and windows, and of one that no task has.
    calls.extend([0, 21_000, 1 << 30].map(|start| Call::Why(MOST_TASKS - 1, start)));
    let (mut met, mut met_with_512_edges) = (BTreeSet::new(), BTreeSet::new());
    let mut random = Random(0x57ac_5eed_0000_0001);
    for (k, draft) in largest(&mut random).iter().enumerate() {
        assert_eq!((draft.tasks.len(), draft.prices.len()), (MOST_TASKS, 16));
        let mut request = draft.bytes();
        let numbers = answers(&request, &calls);
        met.extend([numbers[0], numbers[1]]);
        if draft.edges.len() == 512 {
            met_with_512_edges.insert(numbers[0]);
        }
        Damage::ALL[k % Damage::ALL.len()].to(&mut random, &mut request);
        met.insert(answers(&request, &calls)[0]);
    }
    assert!(met.iter().eq([0].iter().chain(&REFUSALS)), "{met:?}");
    assert!(met_with_512_edges.iter().eq(&[0, 8, 9, 11]), "{met_with_512_edges:?}");
    answers(b"left    ", &[Call::LabelLen(0), Call::LabelLen(1)]);
    answers(b"", &[Call::Listed(b'_'), Call::Listed(b';')]);
    Measured { thread: driver.deepest(), functions }
}

/// What the frames of each exported function and of those below it add up to.
fn summed() -> Figures {
    let library = Library::built();
    library.exported().map(|name| (name.to_string(), library.deepest(name).bytes)).collect()
}

#[test]
fn the_largest_requests_take_little_stack() {
    let Measured { functions, thread } = measured();
    for (name, &bytes) in functions {
        say(&format!("{name} takes {} bytes of stack", commas(bytes)));
        assert!(bytes <= MOST, "{name} takes more than {MOST} bytes");
    }
    say(&format!("the driver's thread takes {} of its 32,768 bytes of stack", commas(*thread)));
    assert!(*thread <= MOST_OF_THREAD, "the thread takes more than {MOST_OF_THREAD}");
}

#[test]
fn the_frames_add_up_to_little() {
    let library = Library::built();
    for name in library.exported() {
        let chain = library.deepest(name);
        let functions = chain.functions.join(", ");
        say(&format!("the frames of {name} add up to {}: {functions}", commas(chain.bytes)));
        assert!(chain.bytes <= MOST, "the frames of {name} add up to more than {MOST}");
    }
}

#[test]
fn what_is_measured_is_within_the_frames() {
    let (measured, summed) = (&measured().functions, summed());
    assert!(measured.keys().eq(summed.keys()), "each exported function is measured");
    for (name, &bytes) in measured {
        assert!(bytes <= summed[name] + C_LIBRARY, "{name}: {bytes}, {}", summed[name]);
    }
}

#[test]
fn no_function_calls_itself() {
    let library = Library::built();
    for name in library.functions() {
        library.deepest(name);
    }
    say("no function of the library calls itself, by whatever way");
}

#[test]
fn nothing_outside_is_called_but_memcpy_and_memset() {
    let library = Library::built();
    let outside = library.called_outside();
    assert!(outside.is_subset(&BTreeSet::from(["memcpy", "memset"])), "{outside:?}");
    say("the library calls nothing outside but memcpy and memset: no heap");
}

/// It has a line for each function, such as `    zabgurin_listed               8 bytes`, in its opening comment.
#[test]
fn the_header_says_what_the_frames_add_up_to() {
    let header = document("include/zabgurin.h");
    let (comment, _) = header.split_once("*/").expect("the end of a comment");
    let words = |line: &str| line.split_whitespace().collect::<Vec<_>>().join(" ");
    let is_figure = |line: &String| line.starts_with("zabgurin_") && line.ends_with(" bytes");
    let said: BTreeSet<String> = comment.lines().map(words).filter(is_figure).collect();
    let line = |(name, bytes)| format!("    {name:<25}{:>6} bytes", commas(bytes));
    let due: Vec<String> = summed().into_iter().map(line).collect();
    let due_words = due.iter().map(|line| words(line)).collect();
    assert!(
        said == due_words,
        "these lines are due:\n{}\nthese stand there: {said:#?}",
        due.join("\n")
    );
}

/// They have a row for each function, with what its frames add up to and what is measured.
#[test]
fn the_promises_say_what_is_summed_and_measured() {
    let promises = document("docs/PROMISES.md");
    let mut said: BTreeSet<&str> =
        promises.lines().filter(|line| line.starts_with("| zabgurin_")).collect();
    let mut due = Vec::new();
    for (name, bytes) in summed() {
        let measured = measured().functions[&name];
        let row = |more| format!("| {name} | {} | {} |", commas(bytes), commas(measured + more));
        if !(0..=ROOM).any(|more| said.remove(&*row(more))) {
            due.push(row(0));
        }
    }
    let due = due.join("\n");
    assert!(
        due.is_empty() && said.is_empty(),
        "these rows are due, the last number up to {ROOM} more:\n{due}\nthese are not: {said:#?}"
    );
}
