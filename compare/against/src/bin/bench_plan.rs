//! Times the exported planner against the independent program's, side by side: nanoseconds for one plan, the best of
//! many rounds, from 8 tasks to 64, without minimums, windows, markers and a share, and for 64 with 16 minimums, with 64
//! windows, with both, with 16 markers and with a share. `bench_plan proved 64 1000` makes so many plans by one of the two
//! (`proved` or `plain`) and prints nothing, for a tool that counts instructions; the words `minimums`, `windows`,
//! `markers` and `share` behind that make them with these.
use compare::build::Draft;
use compare::random::{cheapest_total, make_marker, windows_of, Random};
use compare::Row;
use std::hint::black_box;
use std::time::Instant;

const ROUNDS: usize = 2_000;
const PASSES: usize = 10;

/// The windows end by then, which is about when the plan of 64 tasks ends without them.
const WINDOWS_END: u64 = 18_000;

/// What a request has besides.
#[derive(Clone, Copy, Default)]
struct With {
    /// All processors have a minimum.
    minimums: bool,
    /// All processors have four windows.
    windows: bool,
    /// Every fourth task takes no time, and has the rank of one that waits for it, if one does.
    markers: bool,
    /// A `K` of 500 sets the budget.
    share: bool,
}

/// So many tasks, numbered in any order, on 16 processors, with eight edges to a task or as many as there can be. All else
/// but the budget is the same.
fn request(n: usize, With { minimums, windows, markers, share }: With) -> Vec<u8> {
    let mut random = Random(0x5eed_9a17_be9c_0001);
    let mut draft = Draft::new(0, &[], &[], &[]);
    draft.prices = (0..16).map(|_| random.within(1, 100) as u8).collect();
    for i in 0..n {
        let minutes = (0..16).map(|_| random.within(1, 2_000) as u16).collect();
        draft.tasks.push((format!("task{i}"), minutes));
    }
    let mut order: Vec<u8> = (0..n as u8).collect();
    for i in (1..n).rev() {
        order.swap(i, random.within(0, i as u64) as usize);
    }
    let pairs = n * (n - 1) / 2;
    let mut left = pairs as u64;
    let mut wanted = pairs.min(8 * n) as u64;
    for to in 1..n {
        for from in 0..to {
            if random.within(1, left) <= wanted {
                let transfer = random.within(0, 1_000) as u16;
                draft.edges.push((order[from], order[to], transfer));
                wanted -= 1;
            }
            left -= 1;
        }
    }
    draft.edges.sort();
    if minimums {
        draft.minimums = (0..16).map(|_| Some(random.within(0, 10_000) as u16)).collect();
    }
    if markers {
        (0..n).step_by(4).for_each(|i| make_marker(&mut draft, i, true));
    }
    draft.budget = (cheapest_total(&draft) * 5 / 4) as u32;
    if windows {
        let mut random = Random(0x5eed_9a17_be9c_0002);
        let four = |j| windows_of(&mut random, j, 4, (0, WINDOWS_END));
        draft.windows = (0..16).flat_map(four).collect();
    }
    if share {
        draft = draft.with_share(500);
    }
    draft.bytes()
}

fn main() {
    let plain = |request: &[u8]| {
        let mut rows = [Row::default(); 64];
        compare::plan(request, &mut rows);
        rows[0].finish
    };
    let proved = |request: &[u8]| {
        let mut columns = [[0; 64]; 4];
        let [processors, starts, finishes, costs] = &mut columns;
        let answer = zabgurin::plan_into(request, processors, starts, finishes, costs);
        assert!(black_box(answer).is_ok());
        columns[2][0]
    };
    let words: Vec<String> = std::env::args().skip(1).collect();
    if let [by, n, plans, with @ ..] = &words[..] {
        let n = n.parse().expect("a number of tasks");
        let said = |name: &str| with.iter().any(|word| word == name);
        let with = With {
            minimums: said("minimums"),
            windows: said("windows"),
            markers: said("markers"),
            share: said("share"),
        };
        let request = request(n, with);
        for _ in 0..plans.parse::<usize>().expect("a number of plans") {
            black_box(if by == "proved" { proved(&request) } else { plain(&request) });
        }
        return;
    }
    let none = With::default();
    let (minimums, windows) = (With { minimums: true, ..none }, With { windows: true, ..none });
    let both = With { windows: true, ..minimums };
    let cases = [
        (8, none, ""),
        (16, none, ""),
        (32, none, ""),
        (64, none, ""),
        (64, minimums, ", 16 minimums"),
        (64, windows, ", 64 windows"),
        (64, both, ", 16 minimums, 64 windows"),
        (64, With { markers: true, ..none }, ", 16 markers"),
        (64, With { share: true, ..none }, ", a share"),
    ];
    for (n, with, said) in cases {
        let request = request(n, with);
        assert_eq!(zabgurin::text(&request), compare::text(&request));
        let round = |plan: &dyn Fn(&[u8]) -> u64| {
            let start = Instant::now();
            for _ in 0..PASSES {
                black_box(plan(black_box(&request)));
            }
            start.elapsed().as_nanos() as f64 / PASSES as f64
        };
        let (mut ours, mut theirs) = (f64::MAX, f64::MAX);
        for _ in 0..ROUNDS {
            ours = ours.min(round(&proved));
            theirs = theirs.min(round(&plain));
        }
        let edges = (n * (n - 1) / 2).min(8 * n);
        let ratio = ours / theirs;
        println!(
            "{n} tasks, {edges} edges{said}: proved {ours:.0} ns, plain {theirs:.0} ns, ratio {ratio:.2}"
        );
    }
}
