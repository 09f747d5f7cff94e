//! The order in which tasks are placed, on random requests from a fixed seed: the
//! rule written out, and document 01's order, by which requests without a 0 have the
//! same plans. Both are put into a planner that marks each minute that is taken, and
//! so are the three methods.

use std::cmp::Reverse;

use compare::build::Draft;
use compare::random::{cheapest_total, cost, draft, has_a_zero, Limits, Random, FULL, SMALL};
use compare::shapes::{of_every_shape, SHAPES};
use compare::{order, plan, plan_by, ranks, read, Answer, Method, Row};

/// The order of the rules, and document 01's.
#[derive(Clone, Copy, PartialEq)]
enum Order {
    /// "The next task placed is the highest rank among unplaced tasks whose
    /// predecessors are all placed; ties to lower number."
    Now,
    /// "Tasks are placed by falling R; equal R, lower number first."
    Before,
}

/// The tasks in that order; nothing where the edges have a cycle.
fn tasks_in(order: Order, draft: &Draft) -> Option<Vec<usize>> {
    let n = draft.tasks.len();
    let ranks = ranks(&read(&draft.bytes()).unwrap())?;
    let mut predecessors = vec![Vec::new(); n];
    for &(from, to, _) in &draft.edges {
        predecessors[usize::from(to)].push(usize::from(from));
    }
    let mut placed = vec![false; n];
    let next = |placed: &[bool]| {
        let all_placed = |i: usize| predecessors[i].iter().all(|&before| placed[before]);
        let unplaced = (0..n).filter(|&i| !placed[i]);
        let among = unplaced.filter(|&i| order == Order::Before || all_placed(i));
        among.max_by_key(|&i| (ranks[i], Reverse(i)))
    };
    let mut tasks = Vec::new();
    while let Some(i) = next(&placed) {
        placed[i] = true;
        tasks.push(i);
    }
    Some(tasks)
}

/// Later than any finish within these limits.
fn latest(limits: &Limits) -> usize {
    let minutes = limits.tasks * limits.minutes + (limits.tasks - 1) * limits.transfer;
    (limits.window + minutes + 1) as usize
}

/// The answer and the rows by this method, with the tasks placed in this order. Of a
/// predecessor that is not placed the row is all 0.
fn planned(draft: &Draft, method: Method, order: Order, latest: usize) -> (Answer, Vec<Row>) {
    let refused = |number, place| (Answer::Refused { number, place }, Vec::new());
    let Some(tasks) = tasks_in(order, draft) else {
        // The lowest task on a cycle is the program's business.
        let answer = plan(&draft.bytes(), &mut [Row::default(); 64]);
        assert!(matches!(answer, Answer::Refused { number: 8, .. }));
        return (answer, Vec::new());
    };
    let summed = |rows: &[Row]| rows.iter().map(|row| row.cost).sum::<u64>();
    let (rows, left) = match method {
        Method::Cheapest => (placed(draft, &tasks, latest, |offers, _, _| lowest_cost(offers)), 0),
        Method::Heft => (placed(draft, &tasks, latest, |offers, _, _| best(offers)), 0),
        Method::Hbcs => {
            let cheapest = cheapest_total(draft);
            let budget = match draft.share {
                None => draft.budget.into(),
                Some(share) => {
                    let heft = placed(draft, &tasks, latest, |offers, _, _| best(offers));
                    cheapest + (summed(&heft) - cheapest) * u64::from(share) / 1_000
                }
            };
            if cheapest > budget {
                return refused(9, cheapest);
            }
            let within = |offers: &[Row], spent, rcb| *choice(offers, budget - spent, rcb);
            let rows = placed(draft, &tasks, latest, within);
            let left = budget - summed(&rows);
            (rows, left)
        }
    };
    let length = rows.iter().map(|row| row.finish).max().unwrap();
    if method == Method::Hbcs && draft.deadline.is_some_and(|deadline| length > deadline.into()) {
        return refused(11, length);
    }
    let (n, cost) = (rows.len() as u64, summed(&rows));
    (Answer::Planned { n, length, cost, left }, rows)
}

/// The rows of these tasks, placed one after the other: each as is chosen from what all
/// processors give it, what is spent so far and the lowest costs of those to come.
fn placed(
    draft: &Draft,
    tasks: &[usize],
    latest: usize,
    chosen: impl Fn(&[Row], u64, u64) -> Row,
) -> Vec<Row> {
    let m = draft.prices.len();
    let mut taken = vec![vec![false; latest]; m];
    for &(j, begin, end) in &draft.windows {
        taken[usize::from(j)][begin as usize..end as usize].fill(true);
    }
    let mut rows = vec![Row::default(); draft.tasks.len()];
    let (mut spent, mut rcb) = (0, cheapest_total(draft));
    for &i in tasks {
        let offer = |j: usize| {
            let entering = draft.edges.iter().filter(|edge| usize::from(edge.1) == i);
            let arrivals = entering.map(|&(from, _, transfer)| {
                let before = rows[usize::from(from)];
                let away = before.processor as usize != j;
                before.finish + if away { transfer.into() } else { 0 }
            });
            let minutes = usize::from(draft.tasks[i].1[j]);
            let free = |&start: &usize| !taken[j][start..start + minutes].contains(&true);
            let ready = arrivals.max().unwrap_or(0) as usize;
            let start = (ready..).find(free).unwrap();
            let (start, finish) = (start as u64, (start + minutes) as u64);
            Row { processor: j as u64, start, finish, cost: cost(draft, i, j) }
        };
        let offers: Vec<Row> = (0..m).map(offer).collect();
        rcb -= offers.iter().map(|row| row.cost).min().unwrap();
        let row = chosen(&offers, spent, rcb);
        taken[row.processor as usize][row.start as usize..row.finish as usize].fill(true);
        spent += row.cost;
        rows[i] = row;
    }
    rows
}

/// "Earliest finish; ties to lower cost, then lower number."
fn best(offers: &[Row]) -> Row {
    *offers.iter().min_by_key(|row| (row.finish, row.cost, row.processor)).unwrap()
}

/// "Lowest cost, ties to earliest finish, then lower number."
fn lowest_cost(offers: &[Row]) -> Row {
    *offers.iter().min_by_key(|row| (row.cost, row.finish, row.processor)).unwrap()
}

/// The section "Choosing a processor", in the numbers of its sentences.
fn choice(offers: &[Row], rb: u64, rcb: u64) -> &Row {
    let best = best(offers);
    let highest = |of: fn(&Row) -> u64| offers.iter().map(of).max().unwrap();
    let lowest = |of: fn(&Row) -> u64| offers.iter().map(of).min().unwrap();
    let range = |of: fn(&Row) -> u64| (highest(of) - lowest(of)).max(1);
    let (b, f) = (range(|row| row.cost), range(|row| row.finish));
    let latest = highest(|row| row.finish);
    let may_be_taken = |row: &&Row| row.cost <= best.cost && row.cost + rcb <= rb;
    let score =
        |row: &Row| (best.cost - row.cost) * rcb * f + (latest - row.finish) * b * rb.max(1);
    let taken = offers.iter().filter(may_be_taken);
    taken.max_by_key(|row| (score(row), Reverse(row.finish), Reverse(row.processor))).unwrap()
}

/// The program's answer and rows by this method.
fn answered(draft: &Draft, method: Method) -> (Answer, Vec<Row>) {
    let mut rows = [Row::default(); 64];
    let answer = plan_by(method, &draft.bytes(), &mut rows);
    let n = if matches!(answer, Answer::Planned { .. }) { draft.tasks.len() } else { 0 };
    (answer, rows[..n].to_vec())
}

/// On requests up to the full size, of every shape too.
#[test]
fn the_order_is_as_the_rule_says() {
    let mut random = Random(0x0A9A_5EED_0000_0001);
    let drawn = (0..20_000).map(|round| {
        let limits = if round % 10 == 0 { &FULL } else { &SMALL };
        draft(&mut random, limits)
    });
    let (mut anew, mut cycles) = (0, 0);
    for draft in drawn.chain(of_every_shape(0x0A9A_5EED_0000_0002, SHAPES)) {
        let now = tasks_in(Order::Now, &draft);
        assert_eq!(order(&read(&draft.bytes()).unwrap()), now, "{draft:?}");
        anew += usize::from(now != tasks_in(Order::Before, &draft));
        cycles += usize::from(now.is_none());
    }
    println!("{anew} in another order than document 01's, {cycles} with a cycle");
    assert!(anew >= 1_000 && cycles >= 1_000, "{anew}, {cycles}");
}

/// "Show that requests without zeros keep their plans" (A9): the same answers and rows
/// by either order. Where there are zeros the rules' order gives the program's answers
/// too, and document 01's sometimes others: a task is placed before its data is ready.
#[test]
fn requests_without_zeros_keep_their_plans() {
    let mut random = Random(0x0A9A_5EED_0000_0003);
    // Without zeros and with them: plans and refusals; with them, those that differ.
    let (mut without, mut with) = ([0; 12], [0; 12]);
    let (mut ordered_anew, mut others, mut other_answers) = (0, 0, 0);
    for _ in 0..20_000 {
        let draft = draft(&mut random, &SMALL);
        let latest = latest(&SMALL);
        let answered = answered(&draft, Method::Hbcs);
        assert_eq!(planned(&draft, Method::Hbcs, Order::Now, latest), answered, "{draft:?}");
        let before = planned(&draft, Method::Hbcs, Order::Before, latest);
        let number = match answered.0 {
            Answer::Planned { .. } => 0,
            Answer::Refused { number, .. } => number as usize,
        };
        let differs = tasks_in(Order::Before, &draft) != tasks_in(Order::Now, &draft);
        if has_a_zero(&draft) {
            with[number] += 1;
            ordered_anew += usize::from(differs);
            others += usize::from(before != answered);
            other_answers += usize::from(before.0 != answered.0);
            assert!(differs || before == answered, "{draft:?}");
        } else {
            without[number] += 1;
            assert!(!differs, "{draft:?}");
            assert_eq!(before, answered, "{draft:?}");
        }
    }
    println!("without zeros {without:?}, with them {with:?}");
    println!("{ordered_anew} ordered anew, {others} other answers or rows, {other_answers} other answers");
    let each = |met: [usize; 12]| [0, 8, 9, 11].iter().all(|&number| met[number] >= 100);
    assert!(each(without) && each(with), "{without:?} {with:?}");
    assert!(without[0] >= 5_000 && with[0] >= 5_000, "{without:?} {with:?}");
    assert!(others >= 80 && other_answers >= 25, "{others} {other_answers}");
}

/// The two methods asked for alone "both with the present order, starts and windows" (A7),
/// in the same planner.
#[test]
fn the_other_methods_place_as_the_rule_says() {
    let mut random = Random(0x0A7A_5EED_0000_0004);
    let (mut cycles, mut apart, mut shared) = (0, 0, 0);
    for _ in 0..10_000 {
        let draft = draft(&mut random, &SMALL);
        let [cheapest, heft] = [Method::Cheapest, Method::Heft].map(|method| {
            let answered = answered(&draft, method);
            let planned = planned(&draft, method, Order::Now, latest(&SMALL));
            assert_eq!(planned, answered, "{method:?} of {draft:?}");
            answered
        });
        cycles += usize::from(heft.1.is_empty());
        apart += usize::from(cheapest != heft);
        shared += usize::from(draft.share.is_some());
    }
    println!("{cycles} with a cycle, {apart} with two plans, {shared} with a K");
    assert!(cycles >= 200 && apart >= 5_000 && shared >= 2_000, "{cycles} {apart} {shared}");
}
