//! A8 of document 02: why a task does not start sooner. Cases that are small enough to be
//! worked out by hand; and random requests from a fixed seed, minute by minute: that
//! nothing can be pulled forward, by whatever method, and what is told of each start.

mod common;

use std::fs;

use common::run;
use compare::build::{sample, Draft};
use compare::random::{draft, Limits, Random, SMALL};
use compare::{order, plan_by, read, samples, why_not, why_text};
use compare::{Answer, Method, Refusal, Row, Why};

/// What is told of a start of a task of this request, which has a plan.
fn told(request: &Draft, task: usize, start: u64) -> Why {
    why_not(&request.bytes(), task, start).unwrap_or_else(|refusal| panic!("{refusal:?}"))
}

/// The rows by this method, if there is a plan.
fn rows(method: Method, draft: &Draft) -> Option<Vec<Row>> {
    let mut rows = [Row::default(); 64];
    match plan_by(method, &draft.bytes(), &mut rows) {
        Answer::Planned { n, .. } => Some(rows[..n as usize].to_vec()),
        Answer::Refused { .. } => None,
    }
}

/// Processor, start and finish of each task.
fn places(draft: &Draft) -> Vec<(u64, u64, u64)> {
    let rows = rows(Method::Hbcs, draft).expect("it has a plan");
    rows.iter().map(|row| (row.processor, row.start, row.finish)).collect()
}

fn data(from: u64, minute: u64) -> Why {
    Why::Data { from, minute }
}
fn window(begin: u64, end: u64) -> Why {
    Why::Window { begin, end }
}
fn row(task: u64, start: u64, finish: u64) -> Why {
    Why::Row { task, start, finish }
}
fn own(start: u64) -> Why {
    Why::Own { start }
}

// ---- By hand ----

#[test]
fn the_sample() {
    let sample = sample(28);
    assert_eq!(places(&sample), [(1, 0, 4), (0, 6, 14), (1, 4, 6)]);
    assert_eq!(told(&sample, 0, 0), own(0));
    assert_eq!(told(&sample, 0, 1), own(0));
    // `prep` is finished at 4, and 2 minutes later its data is on processor 0.
    assert!((0..6).all(|start| told(&sample, 1, start) == data(0, 6)));
    assert!((0..4).all(|start| told(&sample, 2, start) == data(0, 4)));
    for later in [0, 1, 100, u64::MAX - 6] {
        assert_eq!(told(&sample, 1, 6 + later), own(6));
        assert_eq!(told(&sample, 2, 4 + later), own(4));
    }
}

#[test]
fn a_task_that_the_request_does_not_have() {
    for task in [3, 4, 64, 256, 257, 1 << 32, usize::MAX] {
        for start in [0, 6, u64::MAX] {
            assert_eq!(told(&sample(28), task, start), Why::NoTask { tasks: 3 });
        }
    }
}

/// The refusal comes first, whatever the task and the start.
#[test]
fn a_request_without_a_plan() {
    let dated = |deadline| Draft { deadline: Some(deadline), ..sample(28) };
    let mut cyclic = sample(28);
    cyclic.edges.push((1, 0, 0));
    let good = sample(28).bytes();
    let refused = [
        (vec![], (1, 0)),
        (good[..83].to_vec(), (1, 83)),
        ([&good[..], b"Z"].concat(), (6, 84)),
        (cyclic.bytes(), (8, 0)),
        (sample(23).bytes(), (9, 24)),
        (dated(13).bytes(), (11, 14)),
    ];
    for (request, (number, place)) in refused {
        for (task, start) in [(0, 0), (1, 6), (2, 0), (3, 0), (usize::MAX, u64::MAX)] {
            assert_eq!(why_not(&request, task, start), Err(Refusal { number, place }));
            let text =
                format!("no {number} {place}\nThe request has no plan, so no task has a start.\n");
            assert_eq!(why_text(&request, task, start), text.into_bytes());
        }
    }
    assert_eq!(told(&dated(14), 1, 5), data(0, 6));
}

#[test]
fn windows() {
    // Four minutes fit neither before 3 nor between 6 and 8. Two of the windows touch.
    let alone = Draft::new(0, &[0], &[&[4]], &[]);
    let alone = alone.with_windows(&[(0, 3, 5), (0, 5, 6), (0, 8, 9), (0, 20, 30)]);
    assert_eq!(places(&alone), [(0, 9, 13)]);
    let first = |start| told(&alone, 0, start);
    assert!((0..5).all(|start| first(start) == window(3, 5)));
    assert_eq!(
        [5, 6, 7, 8, 9].map(first),
        [window(5, 6), window(8, 9), window(8, 9), window(8, 9), own(9)]
    );
    // Those of another processor do not count.
    let mut beside = alone.clone();
    beside.prices.push(0);
    beside.tasks[0].1.push(40);
    beside.windows.push((1, 0, 1));
    assert_eq!(places(&beside), places(&alone));
    assert!((0..12).all(|start| told(&beside, 0, start) == first(start)));
}

/// "By the first that is so of data, then windows, then rows."
#[test]
fn data_then_windows_then_rows() {
    let draft = sample(28).with_windows(&[(0, 7, 9), (1, 4, 30)]);
    assert_eq!(places(&draft), [(1, 0, 4), (0, 9, 17), (0, 17, 23)]);
    // `left` takes 8 minutes, so that from any start it would run into the window.
    assert!((0..6).all(|start| told(&draft, 1, start) == data(0, 6)));
    assert!((6..9).all(|start| told(&draft, 1, start) == window(7, 9)));
    assert_eq!(told(&draft, 1, 9), own(9));
    // `right` takes 6, so that it would run into `left` too, from 4 on; its data is there at 7.
    assert!((0..7).all(|start| told(&draft, 2, start) == data(0, 7)));
    assert!((7..9).all(|start| told(&draft, 2, start) == window(7, 9)));
    assert!((9..17).all(|start| told(&draft, 2, start) == row(1, 9, 17)));
    assert_eq!(told(&draft, 2, 17), own(17));
}

/// Tasks that run on processor 0, where each has these minutes, and one more, the last,
/// that runs on processor 1 from 0 to 2. What waits for it has its data at 5. The others
/// are taken by falling minutes on processor 1.
fn on_one(minutes: &[(u16, u16)], waits: u8) -> Draft {
    let last = minutes.len() as u8;
    let all: Vec<[u16; 2]> = minutes.iter().map(|&(w, elsewhere)| [w, elsewhere]).collect();
    let mut all: Vec<&[u16]> = all.iter().map(|of_task| &of_task[..]).collect();
    all.push(&[500, 2]);
    Draft::new(0, &[0, 0], &all, &[(last, waits, 3)])
}

/// A row that is placed later than the task: it runs in a gap that was too short for it.
#[test]
fn a_row_that_is_placed_later() {
    // Task 1 is taken first and has its data at 5; 2 does not fit before it, and 0 does.
    let draft = on_one(&[(3, 100), (4, 300), (6, 200)], 1);
    assert_eq!(order(&read(&draft.bytes()).unwrap()), Some(vec![3, 1, 2, 0]));
    assert_eq!(places(&draft), [(0, 0, 3), (0, 5, 9), (0, 9, 15), (1, 0, 2)]);
    assert!((0..3).all(|start| told(&draft, 2, start) == row(0, 0, 3)));
    assert!((3..9).all(|start| told(&draft, 2, start) == row(1, 5, 9)));
    assert_eq!(told(&draft, 2, 9), own(9));
    // With the numbers of the two changed the one that was taken first is told.
    let draft = on_one(&[(4, 300), (3, 100), (6, 200)], 0);
    assert_eq!(places(&draft), [(0, 5, 9), (0, 0, 3), (0, 9, 15), (1, 0, 2)]);
    assert!((0..9).all(|start| told(&draft, 2, start) == row(0, 5, 9)));
}

/// A row of no minutes is overlapped by none.
#[test]
fn a_marker_in_the_minutes() {
    // As before, with a marker for task 0, which waits for 1.
    let mut draft = on_one(&[(0, 0), (3, 100), (4, 300), (6, 200)], 2);
    draft.edges.insert(0, (1, 0, 0));
    let expected = [(0, 3, 3), (0, 0, 3), (0, 5, 9), (0, 9, 15), (1, 0, 2)];
    assert_eq!(places(&draft), expected);
    assert!((0..3).all(|start| told(&draft, 3, start) == row(1, 0, 3)));
    assert!((3..9).all(|start| told(&draft, 3, start) == row(2, 5, 9)));
    // Of the marker itself there is nothing but data to tell.
    assert!((0..3).all(|start| told(&draft, 0, start) == data(1, 3)));
    assert_eq!(told(&draft, 0, 3), own(3));
}

#[test]
fn a_marker_in_a_window() {
    let draft = Draft::new(0, &[0], &[&[7], &[0]], &[(0, 1, 9)]).with_windows(&[(0, 7, 12)]);
    assert_eq!(places(&draft), [(0, 0, 7), (0, 7, 7)]);
    assert!((0..7).all(|start| told(&draft, 1, start) == data(0, 7)));
    assert_eq!(told(&draft, 1, 7), own(7));
}

/// Of the predecessors the one whose data arrives last, of equals the lower number; a
/// transfer counts from another processor only.
#[test]
fn the_last_data() {
    let all = samples::all();
    let (_, markers) = all.iter().find(|(name, _)| *name == "markers").unwrap();
    // Of `join`: `left` is finished at 4 on processor 1, with 2 minutes more, `right` at 6.
    assert!((0..6).all(|start| why_not(markers, 3, start) == Ok(data(1, 6))));
    // With 1 minute more, at 5.
    let mut sooner = markers.clone();
    sooner[116] = 1;
    assert!((0..6).all(|start| why_not(&sooner, 3, start) == Ok(data(2, 6))));
    // Three markers at 5, behind task 4, and one behind them.
    let edges = [(0, 3, 9), (1, 3, 9), (2, 3, 9), (4, 0, 9), (4, 1, 9), (4, 2, 9)];
    let minutes: [&[u16]; 5] = [&[0], &[0], &[0], &[0], &[5]];
    let draft = Draft::new(0, &[0], &minutes, &edges);
    assert_eq!(places(&draft), [(0, 5, 5), (0, 5, 5), (0, 5, 5), (0, 5, 5), (0, 0, 5)]);
    assert!((0..5).all(|start| told(&draft, 3, start) == data(0, 5)));
    assert_eq!(told(&draft, 3, 5), own(5));
    // One behind the other on one processor: the longer is taken first.
    for (minutes, last) in [([3, 2], 1), ([2, 3], 0)] {
        let [zero, one] = minutes;
        let draft = Draft::new(0, &[0], &[&[zero], &[one], &[1]], &[(0, 2, 0), (1, 2, 0)]);
        assert_eq!(places(&draft)[2], (0, 5, 6));
        assert!((0..5).all(|start| told(&draft, 2, start) == data(last, 5)));
    }
}

// ---- Minute by minute ----

/// What takes a minute of a processor: a window, or the row of a task.
#[derive(Clone, Copy)]
enum Taken {
    Window((u8, u32, u32)),
    Row(usize),
}

/// A plan with what takes each minute of each processor.
struct Marked<'a> {
    draft: &'a Draft,
    rows: &'a [Row],
    minutes: Vec<Vec<Option<Taken>>>,
}

impl Marked<'_> {
    fn new<'a>(draft: &'a Draft, rows: &'a [Row]) -> Marked<'a> {
        let ends = draft.windows.iter().map(|window| u64::from(window.2));
        let last = rows.iter().map(|row| row.finish).chain(ends).max().unwrap();
        let mut minutes = vec![vec![None; last as usize]; draft.prices.len()];
        for &window in &draft.windows {
            let (j, begin, end) = window;
            minutes[usize::from(j)][begin as usize..end as usize].fill(Some(Taken::Window(window)));
        }
        for (i, row) in rows.iter().enumerate() {
            let of_row = row.start as usize..row.finish as usize;
            minutes[row.processor as usize][of_row].fill(Some(Taken::Row(i)));
        }
        Marked { draft, rows, minutes }
    }

    /// What stands against this start of a task, if anything does: all other rows, windows
    /// and the processor are kept.
    fn against(&self, task: usize, start: u64) -> Option<Why> {
        let Row { processor: on, start: from, finish, .. } = self.rows[task];
        // The last data, and where it comes from: the edges stand by rising task.
        let mut last = (start, None);
        for &(before, to, transfer) in &self.draft.edges {
            let row = self.rows[usize::from(before)];
            let transfer = if row.processor == on { 0 } else { transfer };
            let arrives = row.finish + u64::from(transfer);
            if usize::from(to) == task && arrives > last.0 {
                last = (arrives, Some(before));
            }
        }
        if let (minute, Some(before)) = last {
            return Some(data(before.into(), minute));
        }
        let minutes = start as usize..(start + finish - from) as usize;
        let mut lowest = None;
        for taken in self.minutes[on as usize][minutes].iter().flatten() {
            match *taken {
                Taken::Window((_, begin, end)) => return Some(window(begin.into(), end.into())),
                Taken::Row(other) if other == task => {}
                Taken::Row(other) => lowest = Some(lowest.map_or(other, |low| other.min(low))),
            }
        }
        lowest.map(|other| row(other as u64, self.rows[other].start, self.rows[other].finish))
    }
}

/// "Keep all other rows, windows and the processor, and no task can be given an earlier
/// start without overlapping a row or window of that processor or starting before its
/// data is ready. It holds for all three methods."
#[test]
fn nothing_can_be_pulled_forward() {
    // Many tasks on few processors, so that rows and gaps are many.
    const CROWDED: Limits = Limits { tasks: 40, processors: 3, edges: 60, ..SMALL };
    let mut random = Random(0x0A8A_5EED_0000_0001);
    let mut plans = [0; 3];
    // Starts that data, a window and a row stand against.
    let mut met = [0; 3];
    for round in 0..20_000 {
        let draft = draft(&mut random, if round % 10 == 0 { &CROWDED } else { &SMALL });
        let methods = [Method::Hbcs, Method::Cheapest, Method::Heft];
        for (plans, method) in plans.iter_mut().zip(methods) {
            let Some(rows) = rows(method, &draft) else { continue };
            *plans += 1;
            let marked = Marked::new(&draft, &rows);
            for (task, row) in rows.iter().enumerate() {
                for start in 0..row.start {
                    let reason = match marked.against(task, start) {
                        Some(Why::Data { .. }) => 0,
                        Some(Why::Window { .. }) => 1,
                        Some(Why::Row { .. }) => 2,
                        _ => panic!("{method:?}: task {task} can start at {start} in {draft:?}"),
                    };
                    met[reason] += 1;
                }
            }
        }
    }
    println!("{plans:?} plans; starts with data, windows and rows against them: {met:?}");
    assert!(plans.iter().all(|&plans| plans >= 10_000), "{plans:?}");
    assert!(met.iter().all(|&met| met >= 500_000), "{met:?}");
}

/// Every start up to a minute behind the task's own.
#[test]
fn what_is_told_is_what_the_minutes_say() {
    // Few different numbers, so that data arrives at the same minute and gaps are filled.
    const ALIKE: Limits = Limits {
        tasks: 12,
        processors: 3,
        edges: 14,
        minutes: 5,
        transfer: 9,
        window: 30,
        ..SMALL
    };
    let mut random = Random(0x0A8A_5EED_0000_0002);
    let (mut refused, mut met, mut later) = (0, [0; 3], 0);
    for round in 0..4_000 {
        let draft = draft(&mut random, if round % 4 == 0 { &SMALL } else { &ALIKE });
        let request = draft.bytes();
        let Some(rows) = rows(Method::Hbcs, &draft) else {
            let answer = plan_by(Method::Hbcs, &request, &mut [Row::default(); 64]);
            let task = random.within(0, 70) as usize;
            let told = why_not(&request, task, random.within(0, 9)).unwrap_err();
            assert_eq!(Answer::from(told), answer);
            refused += 1;
            continue;
        };
        let order = order(&read(&request).unwrap()).unwrap();
        let place = |task: usize| order.iter().position(|&other| other == task);
        let marked = Marked::new(&draft, &rows);
        for (task, row) in rows.iter().enumerate() {
            for start in 0..row.start {
                let told = why_not(&request, task, start).unwrap();
                assert_eq!(Some(told), marked.against(task, start), "{task} at {start}: {draft:?}");
                match told {
                    Why::Data { .. } => met[0] += 1,
                    Why::Window { .. } => met[1] += 1,
                    Why::Row { task: other, .. } => {
                        met[2] += 1;
                        later += usize::from(place(other as usize) > place(task));
                    }
                    _ => unreachable!(),
                }
            }
            for start in [row.start, row.start + 1] {
                assert_eq!(why_not(&request, task, start), Ok(own(row.start)));
            }
        }
        let tasks = rows.len() as u64;
        assert_eq!(why_not(&request, rows.len(), 0), Ok(Why::NoTask { tasks }));
    }
    println!("{refused} refused; data, windows and rows: {met:?}, {later} rows placed later");
    assert!(refused >= 300 && later >= 300, "{refused} {later}");
    assert!(met.iter().all(|&met| met >= 10_000), "{met:?}");
}

// ---- The text, and the program ----

#[test]
fn each_line_and_its_sentence() {
    let down = sample(28).with_windows(&[(0, 7, 9), (1, 4, 30)]);
    let said = [
        (sample(28), (1, 0), "data 0 6\nIts data from task 0 arrives at minute 6.\n"),
        (down.clone(), (1, 6), "window 7 9\nIts processor is down from minute 7 up to minute 9.\n"),
        (down, (2, 9), "row 1 9 17\nIts processor runs task 1 from minute 9 up to minute 17.\n"),
        (sample(28), (1, 6), "own 6\nIn the plan it starts at minute 6, so this is not sooner.\n"),
        (
            sample(28),
            (3, 0),
            "none 3\nThere is no such task; the request has 3, numbered from 0.\n",
        ),
        (sample(23), (1, 0), "no 9 24\nThe request has no plan, so no task has a start.\n"),
    ];
    for (draft, (task, start), expected) in said {
        let request = draft.bytes();
        assert_eq!(String::from_utf8(why_text(&request, task, start)).unwrap(), expected);
        let output = run(&["--why", &task.to_string(), &start.to_string()], &request);
        assert!(output.status.success() && output.stderr.is_empty());
        assert_eq!(String::from_utf8(output.stdout).unwrap(), expected);
    }
}

/// Each call of `./why` on a sample in these documents, and the lines below it.
#[test]
fn the_documents_show_what_is_printed() {
    let all = samples::all();
    for (document, shown) in [("README.md", 1), ("docs/HELP.md", 4)] {
        let file = format!("{}/../{document}", env!("CARGO_MANIFEST_DIR"));
        let text = fs::read_to_string(file).expect("the document is there");
        let calls: Vec<&str> = text.split("`./why samples/").skip(1).collect();
        assert_eq!(calls.len(), shown, "{document}");
        for call in calls {
            let (words, below) = call.split_once('`').unwrap();
            let [file, task, start] = words.split(' ').collect::<Vec<_>>()[..] else {
                panic!("{document}: {words}")
            };
            let (_, request) =
                all.iter().find(|(name, _)| format!("{name}.request") == file).unwrap();
            let lines = below.lines().skip(2).take_while(|line| line.starts_with("    "));
            let shown: String = lines.map(|line| format!("{}\n", &line[4..])).collect();
            let printed = why_text(request, task.parse().unwrap(), start.parse().unwrap());
            assert_eq!(shown.into_bytes(), printed, "{document}: {words}");
        }
    }
}
