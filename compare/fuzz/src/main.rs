//! Looks for requests that the proved library and the independent program answer differently, guided by coverage: the library is compiled with a counter on each
//! edge between its blocks, and a request that takes a counter to a new range is kept and changed further. `fuzz SECONDS CORPUS` starts from the folder's requests and
//! some of its own, and at the end leaves there the shortest requests found that together reach all that was reached.
use std::collections::HashSet;
use std::sync::atomic::{AtomicPtr, AtomicUsize, Ordering};
use std::time::{Duration, Instant};
use std::{env, fs, process};

use compare::random::{Damage, Random};
use compare::shapes::{shaped, starts, BUDGETS, DEADLINES, GRAPHS};
use compare::shapes::{MARKERS, MINIMUMS, NUMBERS, SHARES, WINDOWS};
use compare::{samples, Answer, Method, Row, Why as Told};
use zabgurin::{Costs, Refusal, Why};

static COUNTERS: AtomicPtr<u8> = AtomicPtr::new(std::ptr::null_mut());
static COUNT: AtomicUsize = AtomicUsize::new(0);

/// The compiler has this called before `main`, with the counters of the library.
#[no_mangle]
extern "C" fn __sanitizer_cov_8bit_counters_init(start: *mut u8, stop: *mut u8) {
    if start < stop {
        COUNTERS.store(start, Ordering::Relaxed);
        COUNT.store(stop as usize - start as usize, Ordering::Relaxed);
    }
}

/// Each counter with the range that its value fell into, since the last call; the counters begin again at 0.
fn reached() -> Vec<(usize, u32)> {
    let (start, count) = (COUNTERS.load(Ordering::Relaxed), COUNT.load(Ordering::Relaxed));
    // SAFETY: the counters are the compiler's, of this length, and nothing else looks at them between two calls of the library.
    let counters = unsafe { std::slice::from_raw_parts_mut(start, count) };
    let hit = counters.iter().enumerate().filter(|(_, &value)| value != 0);
    let reached = hit.map(|(edge, &value)| (edge, value.ilog2())).collect();
    counters.fill(0);
    reached
}

/// Holds the library against the independent program on one request, with these many numbers in each buffer: by each method, the range, and what is told of some starts.
fn agree(request: &[u8], lent: [usize; 4]) {
    let same = planned_alike(Method::Hbcs, zabgurin::plan_into, request, lent)
        && planned_alike(Method::Cheapest, zabgurin::cheapest_into, request, lent)
        && planned_alike(Method::Heft, zabgurin::heft_into, request, lent);
    let texts = zabgurin::text(request) == compare::text(request)
        && zabgurin::text_cheapest(request) == compare::text_by(Method::Cheapest, request)
        && zabgurin::text_heft(request) == compare::text_by(Method::Heft, request);
    let range = match (compare::range(request), zabgurin::range(request)) {
        (Ok(theirs), Ok(Costs { cheapest, heft })) => {
            (theirs.cheapest, theirs.heft) == (cheapest, heft)
        }
        (Err(theirs), Err(Refusal { number, place })) => {
            (theirs.number, theirs.place) == (number, place)
        }
        _ => false,
    };
    let starts = starts(request);
    let whys = starts.iter().step_by(1 + starts.len() / 6).all(|&(task, start)| {
        told_alike(compare::why_not(request, task, start), zabgurin::why_not(request, task, start))
    });
    let labels =
        (0..66).all(|task| zabgurin::label(request, task) == compare::label(request, task));
    if !same || !texts || !range || !whys || !labels {
        fs::write("differs.request", request).expect("a file beside the corpus");
        eprintln!("they differ, lent {lent:?}; the request is in differs.request");
        process::exit(1);
    }
}

/// Whether the same is told of a start.
fn told_alike(theirs: Result<Told, compare::Refusal>, ours: Result<Why, Refusal>) -> bool {
    match (theirs, ours) {
        (Ok(Told::Data { from, minute }), Ok(why)) => why == Why::LateData { from, minute },
        (Ok(Told::Window { begin, end }), Ok(why)) => why == Why::InWindow { begin, end },
        (Ok(Told::Row { task, start: begin, finish: end }), Ok(why)) => {
            why == Why::BesideRow { task, begin, end }
        }
        (Ok(Told::Own { start }), Ok(why)) => why == Why::OwnStart { start },
        (Ok(Told::NoTask { tasks }), Ok(why)) => why == Why::NoTask { tasks },
        (Err(theirs), Err(Refusal { number, place })) => {
            (theirs.number, theirs.place) == (number, place)
        }
        _ => false,
    }
}

/// One of the wrapper's planners.
type Planner =
    fn(&[u8], &mut [u64], &mut [u64], &mut [u64], &mut [u64]) -> Result<zabgurin::Summary, Refusal>;

/// Whether the answers and the buffers are the same by this method.
fn planned_alike(method: Method, planner: Planner, request: &[u8], lent: [usize; 4]) -> bool {
    let mut columns =
        lent.map(|length| (0..length as u64).map(|k| 0xfeed_0000 + k).collect::<Vec<_>>());
    let before = columns.clone();
    let [processors, starts, finishes, costs] = &mut columns;
    let ours = planner(request, processors, starts, finishes, costs);

    let mut rows = vec![Row::default(); *lent.iter().min().expect("four")];
    let mut expected = before;
    let same = match (compare::plan_by(method, request, &mut rows), ours) {
        (Answer::Refused { number, place }, Err(refusal)) => {
            (refusal.number, refusal.place) == (number, place)
        }
        (Answer::Planned { n, length, cost, left }, Ok(summary)) => {
            for (i, row) in rows[..n as usize].iter().enumerate() {
                let fields = [row.processor, row.start, row.finish, row.cost];
                expected.iter_mut().zip(fields).for_each(|(column, field)| column[i] = field);
            }
            (summary.tasks, summary.length, summary.cost, summary.left) == (n, length, cost, left)
        }
        _ => false,
    };
    same && columns == expected
}

/// A request made from one that was kept, or a new one.
fn changed(random: &mut Random, kept: &[Vec<u8>]) -> Vec<u8> {
    if kept.is_empty() || random.one_in(10) {
        let shape = (
            random.one_of(&GRAPHS),
            random.one_of(&NUMBERS),
            random.one_of(&BUDGETS),
            random.one_of(&DEADLINES),
            random.one_of(&MINIMUMS),
            random.one_of(&WINDOWS),
            random.one_of(&MARKERS),
            random.one_of(&SHARES),
        );
        let most = random.one_of(&[3, 8, 64]);
        let (n, m) = (random.within(1, most) as usize, random.within(1, 16.min(most)) as usize);
        return shaped(random, (n, m), shape).bytes();
    }
    let mut request = kept[random.within(0, kept.len() as u64 - 1) as usize].clone();
    if random.one_in(4) {
        // The front of one and the rest of another.
        let other = &kept[random.within(0, kept.len() as u64 - 1) as usize];
        let (at, from) =
            (random.within(0, request.len() as u64), random.within(0, other.len() as u64));
        request.truncate(at as usize);
        request.extend(&other[from as usize..]);
    }
    for _ in 0..random.within(1, 3) {
        random.one_of(&Damage::ALL).to(random, &mut request);
    }
    request.truncate(16_384);
    request
}

fn main() {
    let words: Vec<String> = env::args().skip(1).collect();
    let [seconds, corpus] = &words[..] else {
        eprintln!("fuzz SECONDS CORPUS");
        process::exit(2);
    };
    let end = Instant::now() + Duration::from_secs(seconds.parse().expect("a number of seconds"));
    fs::create_dir_all(corpus).expect("the corpus is a folder");
    let mut names: Vec<_> = fs::read_dir(corpus)
        .expect("a folder")
        .map(|entry| entry.expect("an entry").path())
        .collect();
    names.sort();
    let mut open: Vec<Vec<u8>> =
        names.iter().map(|name| fs::read(name).expect("a request")).collect();
    open.extend(samples::all().into_iter().map(|(_, request)| request));

    let mut random = Random(0xf022_5eed_0000_0001);
    let (mut seen, mut kept): (HashSet<(usize, u32)>, Vec<Vec<u8>>) = Default::default();
    let mut runs = 0u64;
    while Instant::now() < end || !open.is_empty() {
        let request = open.pop().unwrap_or_else(|| changed(&mut random, &kept));
        let rows = random.one_of(&[0, 3, 64, 64, 64, 70]);
        let mut lent = [rows; 4];
        if random.one_in(8) {
            lent[random.within(0, 3) as usize] = random.within(0, 70) as usize;
        }
        reached();
        agree(&request, lent);
        runs += 1;
        let new = reached().into_iter().filter(|&at| seen.insert(at)).count();
        if new > 0 {
            kept.push(request);
        }
    }

    // The shortest first, each that reaches something that those before it do not.
    kept.sort_by_key(Vec::len);
    let (mut again, mut left) = (HashSet::new(), Vec::new());
    for request in kept {
        reached();
        agree(&request, [64; 4]);
        if reached().into_iter().filter(|&at| again.insert(at)).count() > 0 {
            left.push(request);
        }
    }
    for name in names {
        fs::remove_file(name).expect("a file of the corpus");
    }
    for (i, request) in left.iter().enumerate() {
        fs::write(format!("{corpus}/{i:03}.request"), request).expect("a file of the corpus");
    }
    let edges = again.iter().map(|&(edge, _)| edge).collect::<HashSet<_>>().len();
    let bytes: usize = left.iter().map(Vec::len).sum();
    println!(
        "{runs} requests, no difference; {edges} of {} edges reached; {} requests of {bytes} bytes kept",
        COUNT.load(Ordering::Relaxed),
        left.len()
    );
}
