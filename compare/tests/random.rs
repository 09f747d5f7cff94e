//! Random requests from a fixed seed: facts about every plan, worked out here
//! from the numbers of the request, and damaged requests.

use std::collections::HashSet;
use std::iter::repeat_with;

use compare::build::{sample, Draft};
use compare::random::{cheapest_total, cost, damage, draft, has_a_zero};
use compare::random::{Damage, Limits, Random, FULL, SMALL};
use compare::shapes::{bills_a_minimum, fills_a_gap, of_every_shape, shaped, turned_by_minimums};
use compare::shapes::{has_a_marker, marker_in_a_row, marker_in_a_window, ordered_anew};
use compare::shapes::{methods_differ, turned_by_share};
use compare::shapes::{shape, turned_by_order, turned_by_windows, waits_for_a_window};
use compare::shapes::{Budget, Deadline, Share, SHAPES};
use compare::shapes::{BUDGETS, DEADLINES, GRAPHS, MARKERS, MINIMUMS, NUMBERS, SHARES, WINDOWS};
use compare::{label, order, plan, plan_by, range, range_text, read, text, text_by};
use compare::{Answer, Costs, Method, Refusal, Row, REFUSALS};

/// What must hold of any answer to a good request with enough rows.
fn check(draft: &Draft, answer: Answer, rows: &[Row]) {
    let Answer::Planned { n, length, cost: total, left } = answer else {
        let Answer::Refused { number, place } = answer else { unreachable!() };
        match number {
            8 => assert!(on_a_cycle(draft, place as u8)),
            9 => assert_eq!((place, draft.share), (cheapest_total(draft), None)),
            11 => assert!(place > u64::from(draft.deadline.unwrap())),
            _ => panic!("refusal {number} at {place}"),
        }
        return;
    };
    assert!(draft.deadline.is_none_or(|deadline| length <= u64::from(deadline)));
    let budget = budget_in_force(draft);
    assert!(cheapest_total(draft) <= budget);
    assert_eq!(total + left, budget);
    check_rows(draft, (n, length, total), rows);
}

/// What must hold of the rows of any plan, by whatever method: n, length and cost are
/// said of it.
fn check_rows(draft: &Draft, (n, length, total): (u64, u64, u64), rows: &[Row]) {
    assert_eq!(n as usize, draft.tasks.len());
    let rows = &rows[..n as usize];
    for (i, row) in rows.iter().enumerate() {
        let j = row.processor as usize;
        assert_eq!(row.finish, row.start + u64::from(draft.tasks[i].1[j]));
        assert_eq!(row.cost, cost(draft, i, j));
        for other in rows[i + 1..].iter().filter(|other| other.processor == row.processor) {
            assert!(!overlap((row.start, row.finish), (other.start, other.finish)));
        }
        for &(_, begin, end) in draft.windows.iter().filter(|window| usize::from(window.0) == j) {
            assert!(!overlap((row.start, row.finish), (begin.into(), end.into())));
        }
        if draft.tasks[i].1[j] == 0 {
            assert_eq!(row.start, ready(draft, rows, i, j));
        }
        // The data is there, and no earlier minute has room beside the windows
        // and the other rows: those placed later have only taken more of them.
        let others = (0..rows.len()).filter(|&k| k != i).map(|k| &rows[k]);
        assert_eq!(row.start, first_with_room(draft, rows, i, j, others));
    }
    assert_eq!(total, rows.iter().map(|row| row.cost).sum::<u64>());
    assert_eq!(length, rows.iter().map(|row| row.finish).max().unwrap());
}

/// What a processor is chosen by, from a task's finish and cost there.
type Key = fn(u64, u64) -> (u64, u64);

/// The rows of the plan in which each task goes to the processor of the least key, made of
/// its finish and cost there; of equals to the lower number.
fn placed_by(draft: &Draft, key: Key) -> Vec<Row> {
    let order = order(&read(&draft.bytes()).unwrap()).unwrap();
    let mut rows = vec![Row::default(); draft.tasks.len()];
    for (placed, &i) in order.iter().enumerate() {
        let on = |j: usize| {
            let before = order[..placed].iter().map(|&k| &rows[k]);
            let start = first_with_room(draft, &rows, i, j, before);
            let finish = start + u64::from(draft.tasks[i].1[j]);
            Row { processor: j as u64, start, finish, cost: cost(draft, i, j) }
        };
        let all = (0..draft.prices.len()).map(on);
        let row = all.min_by_key(|row| key(row.finish, row.cost)).unwrap();
        rows[i] = row;
    }
    rows
}

/// What rows cost together.
fn total(rows: &[Row]) -> u64 {
    rows.iter().map(|row| row.cost).sum()
}

/// The budget of `H`, or the one that a `K` sets, for a request without a cycle.
fn budget_in_force(draft: &Draft) -> u64 {
    let Some(share) = draft.share else { return draft.budget.into() };
    let heft = total(&placed_by(draft, |finish, cost| (finish, cost)));
    let cheapest = cheapest_total(draft);
    cheapest + u64::from(share) * (heft - cheapest) / 1_000
}

/// The two methods asked for alone: each task to the processor of its least key, whatever
/// the budget, the deadline and a `K` say, and nothing left; or the refusal 8.
fn check_alone(draft: &Draft) {
    let request = draft.bytes();
    let mut totals = [0; 2];
    let methods: [(Method, Key); 2] = [
        (Method::Cheapest, |finish, cost| (cost, finish)),
        (Method::Heft, |finish, cost| (finish, cost)),
    ];
    for (of_method, (method, key)) in totals.iter_mut().zip(methods) {
        let mut rows = [Row::default(); 64];
        let answer = plan_by(method, &request, &mut rows);
        let lines = text_by(method, &request).iter().filter(|&&byte| byte == b'\n').count();
        let (n, length, cost) = match answer {
            Answer::Planned { n, length, cost, left: 0 } => (n, length, cost),
            Answer::Refused { number: 8, place } => {
                assert!(on_a_cycle(draft, place as u8));
                assert_eq!(range(&request), Err(Refusal { number: 8, place }));
                assert_eq!(lines, 1);
                return;
            }
            other => panic!("{other:?} for {draft:?}"),
        };
        assert_eq!(rows[..n as usize], placed_by(draft, key), "{method:?} of {draft:?}");
        check_rows(draft, (n, length, cost), &rows);
        assert_eq!(lines as u64, 1 + n);
        *of_method = cost;
    }
    let [cheapest, heft] = totals;
    assert_eq!(cheapest, cheapest_total(draft));
    assert!(cheapest <= heft);
    assert_eq!(range(&request), Ok(Costs { cheapest, heft }));
    assert_eq!(range_text(&request), format!("range {cheapest} {heft}\n").into_bytes());
}

/// "Two intervals overlap when they have a minute in common": the later begin is
/// then one.
fn overlap((begin, end): (u64, u64), (other_begin, other_end): (u64, u64)) -> bool {
    begin.max(other_begin) < end.min(other_end)
}

/// When what this task waits for is there, if it runs on this processor.
fn ready(draft: &Draft, rows: &[Row], task: usize, processor: usize) -> u64 {
    let entering = draft.edges.iter().filter(|edge| usize::from(edge.1) == task);
    let arrivals = entering.map(|&(from, _, transfer)| {
        let before = rows[usize::from(from)];
        let same = before.processor as usize == processor;
        before.finish + if same { 0 } else { u64::from(transfer) }
    });
    arrivals.max().unwrap_or(0)
}

/// The least minute, not before its data is ready, at which a task's minutes
/// overlap no window of this processor and none of those rows that are on it. It
/// is the one when the data is ready or one at which a window or a row ends, and
/// all of these are tried.
fn first_with_room<'a>(
    draft: &Draft,
    rows: &[Row],
    task: usize,
    processor: usize,
    others: impl Iterator<Item = &'a Row>,
) -> u64 {
    let there = others.filter(|row| row.processor as usize == processor);
    let down = draft.windows.iter().filter(|window| usize::from(window.0) == processor);
    let busy: Vec<(u64, u64)> = there
        .map(|row| (row.start, row.finish))
        .chain(down.map(|&(_, begin, end)| (begin.into(), end.into())))
        .collect();
    let ready = ready(draft, rows, task, processor);
    let minutes = u64::from(draft.tasks[task].1[processor]);
    let has_room = |&start: &u64| !busy.iter().any(|&busy| overlap((start, start + minutes), busy));
    let ends = busy.iter().map(|&(_, end)| end).filter(|&end| end > ready);
    ends.chain([ready]).filter(has_room).min().unwrap()
}

/// Whether this task has a path back to itself and no lower task has: the
/// reach of every task, by Warshall's closure.
fn on_a_cycle(draft: &Draft, task: u8) -> bool {
    let n = draft.tasks.len();
    let mut reach = vec![vec![false; n]; n];
    for &(from, to, _) in &draft.edges {
        reach[usize::from(from)][usize::from(to)] = true;
    }
    for over in 0..n {
        for from in 0..n {
            for to in 0..n {
                reach[from][to] |= reach[from][over] && reach[over][to];
            }
        }
    }
    (0..n).find(|&i| reach[i][i]) == Some(usize::from(task))
}

/// Counts of plans (at 0) and of each refusal, so that a test can show that it
/// met them.
#[derive(Default)]
struct Met([u64; 12]);

impl Met {
    fn note(&mut self, answer: Answer) {
        match answer {
            Answer::Planned { .. } => self.0[0] += 1,
            Answer::Refused { number, .. } => {
                assert!(REFUSALS.contains(&number), "no refusal has the number {number}");
                self.0[number as usize] += 1;
            }
        }
    }

    fn at_least(&self, count: u64, numbers: &[u64]) {
        assert!(numbers.iter().all(|&number| self.0[number as usize] >= count), "{:?}", self.0);
    }
}

fn check_many(random: &mut Random, limits: &Limits, count: usize) {
    let (mut met, mut differ) = (Met::default(), 0);
    let mut sorts = Sorts::default();
    for round in 0..count {
        let draft = draft(random, limits);
        let mut rows = [Row::default(); 64];
        let request = draft.bytes();
        let answer = plan(&request, &mut rows);
        check(&draft, answer, &rows);
        if round % 5 == 0 {
            check_alone(&draft);
        }
        met.note(answer);
        differ += u64::from(methods_differ(&request));
        if matches!(answer, Answer::Planned { .. }) {
            sorts.note(&request);
        }
    }
    met.at_least(20, &[0, 8, 9, 11]);
    println!("{differ} with another cheapest plan than HEFT plan");
    assert!(differ >= count as u64 / 2, "{differ}");
    sorts.at_least(met.0[0], &[0, 6, 6, 4, 4, 3, 80, 200, 12, 150, 30]);
}

/// Counts of plans of these sorts: with a task in a gap, with one that is billed a
/// minimum, others without minimums, with a task that starts where a window ends,
/// others without windows; with a marker, with one in the midst of a window, with one
/// in the midst of a row, placed in another order than document 01's, others in that;
/// with a `K`, and neither the cheapest plan nor the HEFT plan.
#[derive(Default)]
struct Sorts([u64; 11]);

impl Sorts {
    fn note(&mut self, request: &[u8]) {
        let sorts: [fn(&[u8]) -> bool; 11] = [
            fills_a_gap,
            bills_a_minimum,
            turned_by_minimums,
            waits_for_a_window,
            turned_by_windows,
            has_a_marker,
            marker_in_a_window,
            marker_in_a_row,
            ordered_anew,
            turned_by_order,
            turned_by_share,
        ];
        for (count, sort) in self.0.iter_mut().zip(sorts) {
            *count += u64::from(sort(request));
        }
    }

    /// One plan of so many is of each sort; 0 for any number.
    fn at_least(&self, plans: u64, one_of: &[u64; 11]) {
        println!("{:?} of {plans}", self.0);
        let enough = |(&count, &one_of): (&u64, &u64)| one_of == 0 || count >= plans / one_of;
        assert!(self.0.iter().zip(one_of).all(enough), "{:?} of {plans}", self.0);
    }
}

#[test]
fn facts_of_small_plans() {
    check_many(&mut Random(0x9E37_79B9_7F4A_7C15), &SMALL, 20_000);
}

#[test]
fn facts_of_full_plans() {
    check_many(&mut Random(0xD1B5_4A32_D192_ED03), &FULL, 3_000);
}

/// Requests of every shape, as the proved code is asked: in one plan of six some
/// task is in a gap, in one of six some is billed a minimum, and as many are
/// other plans than without minimums; in one of four some task starts where a
/// window ends, and every third is another plan than without windows. Every third
/// has a marker, one of 40 one in the midst of a window, one of 80 one in the midst
/// of a row; one of eight is placed in another order than document 01's, and one of
/// 40 is another plan in that. One of 30 has a `K` and is neither the cheapest plan
/// nor the HEFT plan.
#[test]
fn facts_of_plans_of_every_shape() {
    let mut met = Met::default();
    let mut sorts = Sorts::default();
    for (k, draft) in of_every_shape(0x600D_5EED_0000_0003, 3 * SHAPES).enumerate() {
        let mut rows = [Row::default(); 64];
        let request = draft.bytes();
        let answer = plan(&request, &mut rows);
        check(&draft, answer, &rows);
        // A step that has no divisor with the number of any part of a shape.
        if k % 5 == 0 {
            check_alone(&draft);
        }
        met.note(answer);
        if matches!(answer, Answer::Planned { .. }) {
            sorts.note(&request);
        }
    }
    met.at_least(200, &[0, 8, 9, 11]);
    sorts.at_least(met.0[0], &[6, 6, 6, 4, 3, 3, 40, 80, 8, 40, 30]);
}

/// Nine rounds of the shapes have each with each sort of windows, and one round has
/// each sort of windows, of markers and of shares with each of the other parts.
#[test]
fn every_shape_with_every_sort_of_windows() {
    let rounds = WINDOWS.len() * SHAPES;
    let but_markers = |k: usize| {
        let (graph, numbers, budget, deadline, least, down, _, _) = shape(k);
        (graph, numbers, budget, deadline, least, down)
    };
    let all: HashSet<String> = (0..rounds).map(|k| format!("{:?}", but_markers(k))).collect();
    assert_eq!(all.len(), rounds);
    assert_eq!(but_markers(rounds), but_markers(0));
    assert_eq!(shape(MARKERS.len() * SHARES.len() * rounds), shape(0));
    let parts = |k: usize| {
        let (graph, numbers, budget, deadline, least, down, without_time, between) = shape(k);
        let (graph, numbers) = (format!("{graph:?}"), format!("{numbers:?}"));
        let (budget, deadline) = (format!("{budget:?}"), format!("{deadline:?}"));
        let (least, down) = (format!("{least:?}"), format!("{down:?}"));
        let without_time = format!("{without_time:?}");
        ([graph, numbers, budget, deadline, least], down, without_time, format!("{between:?}"))
    };
    let (mut with_windows, mut with_markers) = (HashSet::new(), HashSet::new());
    let mut with_shares = HashSet::new();
    for (parts, down, without_time, between) in (0..SHAPES).map(parts) {
        let with_down = parts.into_iter().chain([down.clone()]);
        for (i, part) in with_down.chain([without_time.clone()]).enumerate() {
            if i <= 5 {
                with_windows.insert((i, part.clone(), down.clone()));
                with_markers.insert((i, part.clone(), without_time.clone()));
            }
            with_shares.insert((i, part, between.clone()));
        }
    }
    let others = GRAPHS.len() + NUMBERS.len() + BUDGETS.len() + DEADLINES.len() + MINIMUMS.len();
    // Windows themselves are the last of the parts.
    assert_eq!(with_windows.len(), (others + 1) * WINDOWS.len());
    let markers: HashSet<String> = MARKERS.iter().map(|sort| format!("{sort:?}")).collect();
    assert_eq!(with_markers.len(), (others + WINDOWS.len()) * markers.len());
    let shares: HashSet<String> = SHARES.iter().map(|sort| format!("{sort:?}")).collect();
    assert_eq!(with_shares.len(), (others + WINDOWS.len() + markers.len()) * shares.len());
}

/// "Once the cheapest total fits, I believe the cheapest processor can always
/// be taken" (document 02, A6). Each plan is gone through again, task by task,
/// with the cheapest total for a budget, with one more and with more.
#[test]
fn the_cheapest_processor_can_always_be_taken() {
    let mut random = Random(0xC4EA_9E57_0000_0001);
    // The last of them has cycles.
    let graphs = &GRAPHS[..GRAPHS.len() - 1];
    let mut kept_from_best = 0;
    for round in 0..6_000 {
        let (most, widest) = if round % 10 == 0 { (64, 16) } else { (8, 4) };
        let n = random.often_an_end(1, most) as usize;
        let m = random.often_an_end(1, widest) as usize;
        let (graph, numbers) = (random.one_of(graphs), random.one_of(&NUMBERS));
        let (least, down) = (random.one_of(&MINIMUMS), random.one_of(&WINDOWS));
        let without_time = random.one_of(&MARKERS);
        let (budget, deadline) = (Budget::Cheapest, Deadline::None);
        let shape = (graph, numbers, budget, deadline, least, down, without_time, Share::None);
        let mut draft = shaped(&mut random, (n, m), shape);
        let cheapest = cheapest_total(&draft);
        for more in [0, 1, random.within(2, cheapest + 2)] {
            draft.budget = (cheapest + more).min(20_000_000) as u32;
            let mut rows = [Row::default(); 64];
            let answer = plan(&draft.bytes(), &mut rows);
            assert!(matches!(answer, Answer::Planned { .. }), "{answer:?} for {draft:?}");
            kept_from_best += placed_again(&draft, &rows);
        }
    }
    assert!(kept_from_best >= 10_000, "{kept_from_best}");
}

/// Goes through a plan in placing order and holds what each task may take
/// against its row. Gives how many tasks the budget kept from their best.
fn placed_again(draft: &Draft, rows: &[Row]) -> usize {
    let (n, m) = (draft.tasks.len(), draft.prices.len());
    let order = order(&read(&draft.bytes()).unwrap()).unwrap();
    assert_eq!(order.len(), n);
    let (mut rb, mut rcb) = (u64::from(draft.budget), cheapest_total(draft));
    let mut kept_from_best = 0;
    for (placed, &i) in order.iter().enumerate() {
        let finish = |j: usize| {
            let before = order[..placed].iter().map(|&k| &rows[k]);
            first_with_room(draft, rows, i, j, before) + u64::from(draft.tasks[i].1[j])
        };
        let of = |j: usize| cost(draft, i, j);
        let best = (0..m).min_by_key(|&j| (finish(j), of(j))).unwrap();
        let cheapest = (0..m).min_by_key(|&j| of(j)).unwrap();
        let taken = rows[i].processor as usize;
        rcb -= of(cheapest);
        let may_be_taken = |j: usize| of(j) <= of(best) && of(j) + rcb <= rb;
        assert!(may_be_taken(cheapest), "task {i} of {draft:?}");
        assert!(may_be_taken(taken), "task {i} of {draft:?}");
        kept_from_best += usize::from(!may_be_taken(best));
        assert_eq!(rows[i].finish, finish(taken));
        rb -= of(taken);
    }
    kept_from_best
}

/// Times and windows by a, prices by b, minimums and budget by both: the same
/// processors, starts and finishes by a, costs by a x b; refusal 8 the same, 9 by
/// a x b, 11 by a. "A `K` stays what it is: at 0 and at 1,000 the demand holds", and of
/// the two other methods it holds with any.
#[test]
fn multiplied_requests() {
    let mut random = Random(0xA076_1D64_78BD_642F);
    let mut met = Met::default();
    let (mut billed, mut turned, mut marked, mut anew) = (0, 0, 0, 0);
    let mut shared = [0; 2];
    for _ in 0..20_000 {
        let mut draft = draft(&mut random, &SMALL);
        let any = draft.share;
        if let Some(share) = &mut draft.share {
            *share = random.one_of(&[0, 1_000]);
            shared[usize::from(*share / 1_000)] += 1;
        }
        let (a, b) = (random.within(1, 7), random.within(1, 7));
        let (mut rows, mut more) = ([Row::default(); 64], [Row::default(); 64]);
        let answer = plan(&draft.bytes(), &mut rows);
        let multiplied = plan(&draft.times(a as u8, b as u8).bytes(), &mut more);
        let expected = match answer {
            Answer::Planned { n, length, cost, left } => {
                Answer::Planned { n, length: length * a, cost: cost * a * b, left: left * a * b }
            }
            Answer::Refused { number, place } => {
                let factor = match number {
                    8 => 1,
                    9 => a * b,
                    11 => a,
                    _ => panic!("refusal {number} at {place}"),
                };
                Answer::Refused { number, place: place * factor }
            }
        };
        assert_eq!(multiplied, expected);
        let held = |rows: &[Row], more: &[Row]| {
            for (row, more) in rows.iter().zip(more) {
                assert_eq!(more.processor, row.processor);
                assert_eq!((more.start, more.finish), (row.start * a, row.finish * a));
                assert_eq!(more.cost, row.cost * a * b);
            }
        };
        held(&rows, &more);
        draft.share = any;
        for method in [Method::Cheapest, Method::Heft] {
            let (mut rows, mut more) = ([Row::default(); 64], [Row::default(); 64]);
            let answer = plan_by(method, &draft.bytes(), &mut rows);
            let expected = match answer {
                Answer::Planned { n, length, cost, left: 0 } => {
                    Answer::Planned { n, length: length * a, cost: cost * a * b, left: 0 }
                }
                same => same,
            };
            let multiplied = draft.times(a as u8, b as u8).bytes();
            assert_eq!(plan_by(method, &multiplied, &mut more), expected);
            held(&rows, &more);
        }
        met.note(answer);
        billed += u64::from(bills_a_minimum(&draft.bytes()));
        turned += u64::from(turned_by_windows(&draft.bytes()));
        marked += u64::from(has_a_marker(&draft.bytes()));
        anew += u64::from(ordered_anew(&draft.bytes()));
    }
    met.at_least(20, &[0, 8, 9, 11]);
    assert!(billed >= 5_000, "{billed}");
    assert!(turned >= 5_000, "{turned}");
    assert!(marked >= 5_000 && anew >= 1_000, "{marked} {anew}");
    assert!(shared.iter().all(|&shared| shared >= 2_000), "{shared:?}");
}

/// "So at 0 the budget is the cheapest total, and at 1,000 the HEFT plan's cost; 9 cannot
/// come with `K`." At 0 the plan costs just that; and with any share it is the plan that
/// `H` gives with the budget that the share sets.
#[test]
fn shares_of_the_range() {
    let mut random = Random(0x0A7A_5EED_0000_0001);
    let (mut met, mut wide) = (Met::default(), 0);
    for round in 0..10_000 {
        let limits = if round % 10 == 0 { &FULL } else { &SMALL };
        let draft = draft(&mut random, limits);
        let Ok(Costs { cheapest, heft }) = range(&draft.bytes()) else { continue };
        wide += u64::from(heft - cheapest >= 2);
        let between = random.within(1, 999);
        for share in [0, 1, between, 999, 1_000] {
            let shared = draft.clone().with_share(share as u16);
            let budget = match share {
                0 => cheapest,
                1_000 => heft,
                share => cheapest + (heft - cheapest) * share / 1_000,
            };
            assert_eq!(compare::budget(&read(&shared.bytes()).unwrap()), Some(budget));
            let mut rows = [Row::default(); 64];
            let answer = plan(&shared.bytes(), &mut rows);
            match answer {
                Answer::Planned { cost, left, .. } => {
                    assert_eq!(cost + left, budget);
                    assert!(share != 0 || cost == cheapest, "{shared:?}");
                }
                Answer::Refused { number, .. } => assert_eq!(number, 11),
            }
            let given = Draft { share: None, budget: budget as u32, ..shared };
            let mut as_given = [Row::default(); 64];
            assert_eq!(plan(&given.bytes(), &mut as_given), answer);
            assert_eq!(rows, as_given);
            met.note(answer);
        }
    }
    met.at_least(1_000, &[0, 11]);
    assert!(wide >= 5_000, "{wide}");
}

/// The two methods asked for alone, and the range, with any budget, deadline and share:
/// none of these changes anything. A damaged request gets the refusal of reading.
#[test]
fn alone_nothing_is_held_against_them() {
    let mut random = Random(0x0A7A_5EED_0000_0002);
    for _ in 0..5_000 {
        let draft = draft(&mut random, &SMALL);
        let alone = |request: &[u8]| {
            let texts = [Method::Cheapest, Method::Heft].map(|method| text_by(method, request));
            (texts, range_text(request))
        };
        let expected =
            alone(&Draft { budget: 0, share: None, deadline: None, ..draft.clone() }.bytes());
        let deadline = random.one_of(&[None, Some(1), Some(200_000)]);
        let budget = random.one_of(&[0, 1, 20_000_000]);
        let other = Draft { budget, share: None, deadline, ..draft.clone() };
        assert_eq!(alone(&other.bytes()), expected, "{other:?}");
        let share = random.within(0, 1_000) as u16;
        let other = Draft { deadline, ..draft.with_share(share) };
        assert_eq!(alone(&other.bytes()), expected, "{other:?}");

        let mut request = other.bytes();
        damage(&mut random, &mut request);
        if let Err(Refusal { number, place }) = read(&request) {
            let no = format!("no {number} {place}\n").into_bytes();
            assert_eq!(alone(&request), ([no.clone(), no.clone()], no));
        }
    }
}

/// A first and a last task that take no time, with any numbers and transfer 0 on
/// their edges, as in exported workflows: the other tasks are planned as without them,
/// if some processor bills no minimum. The first is at 0, and the last where the plan
/// ends.
#[test]
fn a_first_and_a_last_marker_change_nothing() {
    let mut random = Random(0x0A9A_5EED_0000_0004);
    let (mut met, mut anew) = (Met::default(), 0);
    for round in 0..10_000 {
        let limits = if round % 10 == 0 { &FULL } else { &SMALL };
        let mut draft = draft(&mut random, limits);
        // Room for two tasks more, and for their edges.
        draft.tasks.truncate(62);
        let n = draft.tasks.len();
        draft.edges.retain(|edge| usize::from(edge.0.max(edge.1)) < n);
        draft.edges.truncate(300);
        let free = random.within(0, draft.prices.len() as u64 - 1) as usize;
        draft.minimums.resize(draft.prices.len(), None);
        draft.minimums[free] = random.one_of(&[None, Some(0)]);

        let first = random.within(0, n as u64 + 1) as u8;
        let last = random.within(0, n as u64) as u8;
        let last = last + u8::from(last >= first);
        let numbers: Vec<u8> = (0..n as u8 + 2).filter(|i| ![first, last].contains(i)).collect();
        let of = |i: u8| numbers[usize::from(i)];
        let mut more = draft.clone();
        for i in [first.min(last), first.max(last)] {
            more.tasks.insert(i.into(), ("mark".to_string(), vec![0; draft.prices.len()]));
        }
        more.edges = draft.edges.iter().map(|&(from, to, c)| (of(from), of(to), c)).collect();
        for i in 0..n as u8 {
            if draft.edges.iter().all(|edge| edge.1 != i) {
                more.edges.push((first, of(i), 0));
            }
            if draft.edges.iter().all(|edge| edge.0 != i) {
                more.edges.push((of(i), last, 0));
            }
        }
        more.edges.sort();

        let (mut rows, mut more_rows) = ([Row::default(); 64], [Row::default(); 64]);
        let answer = plan(&draft.bytes(), &mut rows);
        let expected = match answer {
            Answer::Planned { n, length, cost, left } => {
                Answer::Planned { n: n + 2, length, cost, left }
            }
            Answer::Refused { number: 8, place } => {
                Answer::Refused { number: 8, place: of(place as u8).into() }
            }
            refused => refused,
        };
        assert_eq!(plan(&more.bytes(), &mut more_rows), expected, "{more:?}");
        if let Answer::Planned { length, .. } = answer {
            for (row, &i) in rows.iter().zip(&numbers) {
                assert_eq!(more_rows[usize::from(i)], *row, "{more:?}");
            }
            for (i, at) in [(first, 0), (last, length)] {
                let Row { start, finish, cost, .. } = more_rows[usize::from(i)];
                assert_eq!((start, finish, cost), (at, at, 0), "{more:?}");
            }
        }
        anew += u64::from(ordered_anew(&more.bytes()));
        met.note(answer);
    }
    met.at_least(100, &[0, 8, 9, 11]);
    assert!(anew >= 1_000, "{anew}");
}

/// A window whose end is multiplied past 20,000 is refused in reading, and the
/// first such window is the place; else the windows are multiplied.
#[test]
fn windows_multiplied_out_of_range() {
    let mut random = Random(0x0A5A_5EED_0000_0002);
    let mut met = Met::default();
    for _ in 0..5_000 {
        let mut draft = draft(&mut random, &SMALL);
        let windows = random.within(3_000, 20_000);
        draft.windows = compare::random::windows(&mut random, draft.prices.len(), windows);
        let a = random.within(1, 7) as u8;
        let past = |window: &(u8, u32, u32)| window.2 * u32::from(a) > 20_000;
        let first = draft.windows.iter().position(past);
        let mut rows = [Row::default(); 64];
        let answer = plan(&draft.times(a, 1).bytes(), &mut rows);
        match first {
            Some(k) => {
                let records = draft.records();
                let before = records.iter().position(|record| record[0] == b'M').unwrap();
                let place = records[..before + k].concat().len() as u64;
                assert_eq!(answer, Answer::Refused { number: 4, place });
            }
            None => check(&draft.times(a, 1), answer, &rows),
        }
        met.note(answer);
    }
    met.at_least(500, &[0, 4]);
}

/// A window cut in two that touch, and windows later than any finish on any
/// processor, change nothing.
#[test]
fn windows_that_change_nothing() {
    /// The last window, all minutes and all transfers, one after the other.
    const LATER: u64 = SMALL.window + 8 * 20 + 7 * 10;
    let mut random = Random(0x0A5A_5EED_0000_0003);
    let (mut later, mut cut) = (0, 0);
    for _ in 0..5_000 {
        let before = draft(&mut random, &SMALL);
        let mut after = before.clone();
        for j in (0..before.prices.len() as u8).rev() {
            let here = after.windows.iter().position(|window| window.0 == j);
            let behind = after.windows.partition_point(|window| window.0 <= j);
            let there = after.windows.iter().filter(|window| window.0 == j).count();
            if there < 4 && random.one_in(2) {
                let begin = random.within(LATER, 19_999);
                let end = random.within(begin + 1, 20_000);
                after.windows.insert(behind, (j, begin as u32, end as u32));
                later += 1;
            } else if let Some(k) = here.filter(|_| there < 4) {
                let (_, begin, end) = after.windows[k];
                if end - begin >= 2 {
                    let middle = random.within(u64::from(begin) + 1, u64::from(end) - 1) as u32;
                    after.windows.splice(k..=k, [(j, begin, middle), (j, middle, end)]);
                    cut += 1;
                }
            }
        }
        assert_eq!(text(&before.bytes()), text(&after.bytes()), "{before:?} {after:?}");
    }
    assert!(later >= 2_000 && cut >= 1_000, "{later} later, {cut} cut");
}

/// Where all processors are down at first, for the same minutes, the plan is the
/// one that begins then: all starts are as much later, and so are the windows. But
/// a marker does not wait for the windows, so these requests have none.
#[test]
fn all_down_at_first_is_a_later_plan() {
    let mut random = Random(0x0A5A_5EED_0000_0006);
    let (mut met, mut waiting) = (Met::default(), 0);
    for round in 0..5_000 {
        let limits = if round % 10 == 0 { &FULL } else { &SMALL };
        let mut drawn = repeat_with(|| draft(&mut random, limits));
        let mut draft = drawn.find(|draft| !has_a_zero(draft)).unwrap();
        draft.deadline = None;
        let later = random.often_an_end(1, 20_000 - limits.window.min(19_000)) as u32;
        let m = draft.prices.len() as u8;
        // One window of each must have room before the others.
        let of = |j: u8| {
            let of_j = draft.windows.iter().filter(move |window| window.0 == j);
            of_j.filter(|window| window.2 + later <= 20_000).take(3).copied()
        };
        draft.windows = (0..m).flat_map(of).collect();
        let after = (0..m).flat_map(|j| {
            let of_j = draft.windows.iter().filter(move |window| window.0 == j);
            let moved = of_j.map(|&(j, begin, end)| (j, begin + later, end + later));
            [(j, 0, later)].into_iter().chain(moved)
        });
        let after = Draft { windows: after.collect(), ..draft.clone() };
        let (mut rows, mut more) = ([Row::default(); 64], [Row::default(); 64]);
        let answer = plan(&draft.bytes(), &mut rows);
        let expected = match answer {
            Answer::Planned { n, length, cost, left } => {
                Answer::Planned { n, length: length + u64::from(later), cost, left }
            }
            refused => refused,
        };
        assert_eq!(plan(&after.bytes(), &mut more), expected, "{after:?}");
        if let Answer::Planned { n, .. } = answer {
            for (row, more) in rows[..n as usize].iter().zip(&more) {
                assert_eq!((more.processor, more.cost), (row.processor, row.cost));
                assert_eq!(more.start, row.start + u64::from(later));
            }
        }
        waiting += u64::from(waits_for_a_window(&draft.bytes()));
        met.note(answer);
    }
    met.at_least(20, &[0, 8, 9]);
    assert!(waiting >= 500, "{waiting}");
}

/// Lists of windows of small numbers, in order and not: the first that has a fault
/// is refused with the number that is due, as said here of the list as a whole.
#[test]
fn lists_of_windows() {
    let mut random = Random(0x0A5A_5EED_0000_0004);
    let mut met = [0; 9];
    for _ in 0..60_000 {
        let mut windows: Vec<(u8, u32, u32)> = Vec::new();
        for _ in 0..random.within(0, 12) {
            let j = random.one_of(&[0, 0, 0, 0, 0, 1, 1, 1, 1, 1, 2, 255]);
            let begin = random.within(0, 40) as u32;
            let end = match random.within(1, 20) {
                1 => begin,
                2 => begin.saturating_sub(1),
                3 => random.one_of(&[20_000, 20_001, u32::MAX]),
                _ => begin + random.within(1, 6) as u32,
            };
            windows.push((j, begin, end));
        }
        if !random.one_in(6) {
            windows.sort();
        }
        let fault = |k: usize| -> Option<(u64, usize)> {
            let (j, begin, end) = windows[k];
            let before = &windows[..k];
            let above = before.iter().all(|other| (other.0, other.1) < (j, begin));
            let of_j: Vec<_> = before.iter().filter(|other| other.0 == j).collect();
            let inside = of_j.iter().any(|other| begin < other.2);
            match () {
                _ if !above => Some((3, 1)),
                _ if inside => Some((3, 2)),
                _ if j >= 2 => Some((4, 3)),
                _ if begin == end => Some((4, 4)),
                _ if begin > end => Some((4, 5)),
                _ if end > 20_000 => Some((4, 6)),
                _ if of_j.len() >= 4 => Some((4, 7)),
                _ => None,
            }
        };
        let first = (0..windows.len()).find_map(|k| fault(k).map(|(number, why)| (k, number, why)));
        let answer = read(&sample(28).with_windows(&windows).bytes());
        match first {
            Some((k, number, why)) => {
                let refusal = answer.unwrap_err();
                assert_eq!((refusal.number, refusal.place), (number, 13 + 10 * k as u64));
                met[why] += 1;
            }
            None => {
                let read = answer.unwrap().windows;
                let read = read.iter().map(|w| (w.processor as u8, w.begin, w.end));
                assert!(read.eq(windows.iter().copied()));
                met[if windows.is_empty() { 0 } else { 8 }] += 1;
            }
        }
    }
    assert!(met.iter().all(|&count| count >= 500), "{met:?}");
}

/// Damage to a `K` alone: what is refused at one, and what at a `D` behind one.
#[test]
fn damaged_shares() {
    let mut random = Random(0x0A7A_5EED_0000_0003);
    let (mut met, mut met_at_k, mut met_at_d) = (Met::default(), Met::default(), Met::default());
    for round in 0..20_000 {
        let limits = if round % 10 == 0 { &FULL } else { &SMALL };
        let mut request = draft(&mut random, limits).bytes();
        let kinds = [Damage::Share, Damage::Share, Damage::OutOfRange, Damage::Doubled];
        random.one_of(&kinds).to(&mut random, &mut request);
        if random.one_in(8) {
            request.truncate(random.within(0, request.len().min(16) as u64) as usize);
        }
        let answer = plan(&request, &mut [Row::default(); 64]);
        if let Answer::Refused { number: 1..=6, place } = answer {
            match request.get(place as usize) {
                Some(b'K') => met_at_k.note(answer),
                Some(b'D') => met_at_d.note(answer),
                _ => {}
            }
        }
        met.note(answer);
    }
    met.at_least(40, &[0, 1, 2, 3, 4, 5, 8, 9, 11]);
    met_at_k.at_least(40, &[1, 2, 4]);
    met_at_d.at_least(40, &[2]);
}

/// Damage to windows alone: what is refused at an `M`, and that all of 1 to 4 are.
#[test]
fn damaged_windows() {
    let mut random = Random(0x0A5A_5EED_0000_0005);
    let (mut met, mut met_at_m) = (Met::default(), Met::default());
    for round in 0..20_000 {
        let limits = if round % 10 == 0 { &FULL } else { &SMALL };
        let mut request = draft(&mut random, limits).bytes();
        let kinds = [Damage::Windows, Damage::Moved, Damage::OutOfRange, Damage::Doubled];
        random.one_of(&kinds).to(&mut random, &mut request);
        if random.one_in(8) {
            Damage::Cut.to(&mut random, &mut request);
        }
        let answer = plan(&request, &mut [Row::default(); 64]);
        if let Answer::Refused { number: 1..=6, place } = answer {
            if request.get(place as usize) == Some(&b'M') {
                met_at_m.note(answer);
            }
        }
        met.note(answer);
    }
    met.at_least(40, &[0, 1, 2, 3, 4, 5, 6, 8, 9, 11]);
    met_at_m.at_least(40, &[1, 2, 3, 4]);
}

/// "A `P` may stand beside a `Q` with minimum 0": the same answer and rows, where
/// some `P`s become such `Q`s, and such `Q`s `P`s. Where each task takes a minute, and
/// a minute costs something, a minimum of 1 is no other.
#[test]
fn a_minimum_of_0_is_none() {
    let mut random = Random(0x0A4A_5EED_0000_0001);
    let mut changed = 0;
    for round in 0..5_000 {
        let limits = if round % 10 == 0 { &FULL } else { &SMALL };
        let mut draft = draft(&mut random, limits);
        let before = draft.bytes();
        let each_costs = !has_a_zero(&draft);
        draft.minimums.resize(draft.prices.len(), None);
        for (minimum, &price) in draft.minimums.iter_mut().zip(&draft.prices) {
            match minimum {
                Some(0) => *minimum = None,
                None if random.one_in(2) => {
                    *minimum = Some(u16::from(each_costs && price > 0 && random.one_in(4)))
                }
                _ => {}
            }
        }
        let after = draft.bytes();
        changed += u64::from(before != after);
        assert_eq!(text(&before), text(&after), "{draft:?}");
    }
    assert!(changed >= 2_000, "{changed}");
}

#[test]
fn damaged_requests() {
    const KEPT: Row = Row { processor: 91, start: 92, finish: 93, cost: 94 };
    let mut random = Random(0xE703_7ED1_A0B4_28DB);
    let mut met = Met::default();
    let (mut met_at_q, mut met_at_m) = (Met::default(), Met::default());
    let mut met_at_k = Met::default();
    for round in 0..30_000 {
        let limits = if round % 10 == 0 { &FULL } else { &SMALL };
        let mut request = draft(&mut random, limits).bytes();
        damage(&mut random, &mut request);
        let mut rows = [KEPT; 64];
        let lent = if random.one_in(4) { random.within(0, 64) as usize } else { 64 };
        let answer = plan(&request, &mut rows[..lent]);
        let written = match answer {
            Answer::Planned { n, cost, left, .. } => {
                let workflow = read(&request).unwrap();
                assert_eq!(Some(cost + left), compare::budget(&workflow));
                let budget = u32::from_le_bytes(request[3..7].try_into().unwrap());
                assert_eq!(workflow.budget, budget);
                assert!(workflow.share.is_none() || budget == 0);
                assert_eq!(n, u64::from(request[1]));
                n as usize
            }
            Answer::Refused { number, place } => {
                let in_reading = number <= 6;
                assert_eq!(read(&request).is_err(), in_reading);
                assert!(!in_reading || place as usize <= request.len());
                match request.get(place as usize) {
                    Some(b'Q') if in_reading => met_at_q.note(answer),
                    Some(b'M') if in_reading => met_at_m.note(answer),
                    Some(b'K') if in_reading => met_at_k.note(answer),
                    _ => {}
                }
                0
            }
        };
        assert!(rows[..written].iter().all(|row| *row != KEPT));
        assert!(rows[written..].iter().all(|row| *row == KEPT));
        let head = text(&request);
        assert!(head.starts_with(b"plan ") || head.starts_with(b"no "));
        for task in [0, 7, 64] {
            let good = read(&request).is_ok_and(|workflow| task < workflow.tasks);
            assert_eq!(label(&request, task).is_empty(), !good);
        }
        met.note(answer);
    }
    met.at_least(20, &[0]);
    met.at_least(20, &REFUSALS);
    met_at_q.at_least(5, &[1, 2, 3, 4]);
    met_at_m.at_least(5, &[1, 2, 3, 4]);
    met_at_k.at_least(5, &[1, 4]);
}

#[test]
fn bytes_without_sense() {
    let mut random = Random(0x8EBC_6AF0_9C88_C6E3);
    for _ in 0..20_000 {
        let length = random.within(0, 200) as usize;
        let mut request: Vec<u8> =
            (0..length).map(|_| random.one_of(b"HDKPQMTWEZ\0\x01\x02 a")).collect();
        match random.within(1, 6) {
            1 => drop(request.splice(..0, *b"H\x01\x01\0\0\0\0P\0\0")),
            2 => drop(request.splice(..0, *b"H\x01\x01\0\0\0\0Q\0\0\x10\x27")),
            4 => drop(request.splice(..0, *b"H\x01\x01\0\0\0\0K\xe8\x03P\0\0")),
            3 => drop(request.splice(..0, *b"H\x01\x01\0\0\0\0P\0\0M\0\0\0\0\0\x20\x4e\0\0")),
            _ => {}
        }
        let answer = plan(&request, &mut [Row::default(); 64]);
        assert!(matches!(answer, Answer::Refused { number: 1..=6, .. }));
    }
}
