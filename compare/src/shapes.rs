//! Requests for planners: workflows of every shape, with numbers, budgets, deadlines, minimums, windows, markers and shares
//! that bring out ties and limits.

use std::cmp::Reverse;

use crate::build::Draft;
use crate::plan::schedule_in;
use crate::random::{cheapest_total, make_marker, markers, minimums};
use crate::random::{single_zeros, windows_of, Random};
use crate::{
    order, plan, plan_by, ranks, read, schedule, schedule_by, Answer, Method, Row, Workflow,
};

/// How the edges lie. Their tasks are numbered in any order.
#[derive(Clone, Copy, Debug, PartialEq, Eq)]
pub enum Graph {
    /// Each task waits for the one before.
    Chain,
    /// Each task waits for one of the tasks before.
    Fork,
    /// Each task but the last is waited for by one of the tasks after it.
    Join,
    /// Layers of a few tasks, with edges from each to the next.
    Layers,
    /// As many edges as fit, up to 512.
    Dense,
    /// A few edges, so that many tasks wait for none and many are waited for by none.
    Loose,
    /// Layers with some edges turned round or added backwards.
    Cycle,
}

/// Where the times and prices come from.
#[derive(Clone, Copy, Debug, PartialEq, Eq)]
pub enum Numbers {
    Any,
    /// One to three different times and transfers, so that ranks, finishes and scores are often equal.
    Few,
    /// The same minutes for all tasks on all processors, the same transfer on all edges.
    Equal,
    /// Minutes and prices whose products are equal on all processors.
    EqualCosts,
    /// All prices 0.
    Free,
    /// The lowest and the highest values.
    Ends,
    /// Small numbers, and each task quick on one processor: the edges leave processors idle, and later tasks fit into
    /// such a gap to the minute, or are one minute too long for it.
    Gaps,
}

#[derive(Clone, Copy, Debug, PartialEq, Eq)]
pub enum Budget {
    /// More than any plan costs, or 20,000,000.
    Plenty,
    /// The cheapest total.
    Cheapest,
    /// One below it; the cheapest total where that is 0.
    TooLow,
    /// Between the cheapest total and its double.
    Tight,
}

#[derive(Clone, Copy, Debug, PartialEq, Eq)]
pub enum Deadline {
    None,
    /// The length of the plan.
    Length,
    /// One minute below it, where that is a deadline.
    TooEarly,
    Any,
}

/// What the processors bill at the least. But for the first, all are `Q`s, or each is a `Q` or a `P`.
#[derive(Clone, Copy, Debug, PartialEq, Eq)]
pub enum Minimums {
    /// All are `P`s.
    None,
    /// What the minutes of some task cost there, one less or one more: it just does not decide that cost, or just does.
    Near,
    /// The same on all that have one, so that tasks for which it decides cost the same there.
    Same,
    /// The lowest and the highest values.
    Ends,
}

/// When the processors are down. 'The plan' is the one without windows, as long as money does not matter.
#[derive(Clone, Copy, Debug, PartialEq, Eq)]
pub enum Windows {
    /// Never.
    None,
    /// One of them, once in the plan, half of the time from 0 on.
    One,
    /// Each once in the plan.
    Each,
    /// Each four times in the plan.
    Four,
    /// All from 0 on, half of the time to the same minute.
    AtFirst,
    /// Each up to four times, one right behind the other.
    Touching,
    /// Each up to four times, with a minute between two of them, or as many as some task takes there, one less or one more.
    Close,
    /// Some, up to four times, after most plans have ended, often to the last minute of the range.
    Far,
    /// All or all but one up to the last minute of the range: the whole of it, or with gaps in it such as some task takes.
    Long,
}

/// Which tasks take no time.
#[derive(Clone, Copy, Debug, PartialEq, Eq)]
pub enum Markers {
    /// No minutes are 0.
    None,
    /// As in exported workflows: those that wait for none and those that none waits for, half of the time with transfer 0 on
    /// the edges that leave them.
    Ends,
    /// One in three.
    Some,
    /// One in four of all minutes is 0, so that a task takes no time on one processor and some on another.
    Single,
    /// Every second, with transfer 0 on the edges that leave them. So each has the rank of a task that waits for it, if there
    /// is one; half of the time that one has the lower number.
    Tied,
    /// All, half of the time with transfer 0 on all edges.
    All,
}

/// Whether a `K` sets the budget. Where one does, that of the shape does not count.
#[derive(Clone, Copy, Debug, PartialEq, Eq)]
pub enum Share {
    /// There is none.
    None,
    /// 0: the cheapest total.
    Lowest,
    /// 1.
    One,
    /// 500.
    Half,
    /// 999.
    Almost,
    /// 1,000: what the HEFT plan costs.
    Highest,
    Any,
}

pub const GRAPHS: [Graph; 7] = [
    Graph::Chain,
    Graph::Fork,
    Graph::Join,
    Graph::Layers,
    Graph::Dense,
    Graph::Loose,
    Graph::Cycle,
];
pub const NUMBERS: [Numbers; 7] = [
    Numbers::Any,
    Numbers::Few,
    Numbers::Equal,
    Numbers::EqualCosts,
    Numbers::Free,
    Numbers::Ends,
    Numbers::Gaps,
];
pub const BUDGETS: [Budget; 4] = [Budget::Plenty, Budget::Cheapest, Budget::TooLow, Budget::Tight];
pub const DEADLINES: [Deadline; 4] =
    [Deadline::None, Deadline::Length, Deadline::TooEarly, Deadline::Any];
pub const MINIMUMS: [Minimums; 4] =
    [Minimums::None, Minimums::Near, Minimums::Same, Minimums::Ends];

pub const WINDOWS: [Windows; 9] = [
    Windows::None,
    Windows::One,
    Windows::Each,
    Windows::Four,
    Windows::AtFirst,
    Windows::Touching,
    Windows::Close,
    Windows::Far,
    Windows::Long,
];

/// Every sort between two that are none, so that most requests have no 0.
pub const MARKERS: [Markers; 11] = [
    Markers::None,
    Markers::Ends,
    Markers::None,
    Markers::Some,
    Markers::None,
    Markers::Single,
    Markers::None,
    Markers::Tied,
    Markers::None,
    Markers::All,
    Markers::None,
];

/// Every sort between two that are none, so that every second request has no `K`.
pub const SHARES: [Share; 13] = [
    Share::None,
    Share::Lowest,
    Share::None,
    Share::One,
    Share::None,
    Share::Half,
    Share::None,
    Share::Almost,
    Share::None,
    Share::Highest,
    Share::None,
    Share::Any,
    Share::None,
];

pub type Shape = (Graph, Numbers, Budget, Deadline, Minimums, Windows, Markers, Share);

/// How many shapes there are, but for their windows, markers and shares.
pub const SHAPES: usize =
    GRAPHS.len() * NUMBERS.len() * BUDGETS.len() * DEADLINES.len() * MINIMUMS.len();

/// The shapes one after the other: graphs change first, then numbers, budgets, deadlines and minimums. After the last
/// comes the first again, with other windows, markers and shares: these change from each to the next. Since 9, 11, 13 and
/// the number of the others have no divisor in common, nine rounds have all shapes with all windows, and each round has
/// every sort of windows, of markers and of shares with every other part.
pub fn shape(k: usize) -> Shape {
    let (windows, markers) = (WINDOWS[k % WINDOWS.len()], MARKERS[k % MARKERS.len()]);
    let share = SHARES[k % SHARES.len()];
    let (graph, k) = (GRAPHS[k % GRAPHS.len()], k / GRAPHS.len());
    let (numbers, k) = (NUMBERS[k % NUMBERS.len()], k / NUMBERS.len());
    let (budget, k) = (BUDGETS[k % BUDGETS.len()], k / BUDGETS.len());
    let (deadline, k) = (DEADLINES[k % DEADLINES.len()], k / DEADLINES.len());
    (graph, numbers, budget, deadline, MINIMUMS[k % MINIMUMS.len()], windows, markers, share)
}

/// Good requests of every shape, one after the other; sizes up to the limits, half of them small.
pub fn of_every_shape(seed: u64, count: usize) -> impl Iterator<Item = Draft> {
    let mut random = Random(seed);
    (0..count).map(move |k| {
        let (most, widest) = if random.one_in(2) { (8, 4) } else { (64, 16) };
        let n = random.often_an_end(1, most) as usize;
        let m = random.often_an_end(1, widest) as usize;
        shaped(&mut random, (n, m), shape(k))
    })
}

/// The rows of the plan, if the request has one.
fn planned(request: &[u8]) -> Option<Vec<Row>> {
    let mut rows = [Row::default(); 64];
    match plan(request, &mut rows) {
        Answer::Planned { n, .. } => Some(rows[..n as usize].to_vec()),
        Answer::Refused { .. } => None,
    }
}

/// Tasks and starts to ask of: each task of the plan, if there is one, at the starts that `starts_of` gives, and tasks that
/// the request does not have.
pub fn starts(request: &[u8]) -> Vec<(usize, u64)> {
    let rows = planned(request).unwrap_or_default();
    let mut starts = Vec::new();
    if let Some(workflow) = read(request).ok().filter(|_| !rows.is_empty()) {
        for task in 0..rows.len() {
            let of_task = starts_of(&workflow, &rows, task);
            starts.extend(of_task.into_iter().map(|start| (task, start)));
        }
    }
    let n = rows.len();
    let none = [n, n + 1, 64, 255, 256, 1 << 32, usize::MAX];
    starts.extend(none.into_iter().flat_map(|task| [0, 6, u64::MAX].map(|start| (task, start))));
    starts
}

/// Of a task the ends of all starts, its own, and each around which another thing may stand against it: data arrives, or
/// the task would begin or end beside a window or a row of its processor.
fn starts_of(workflow: &Workflow, rows: &[Row], task: usize) -> Vec<u64> {
    let own = rows[task];
    let there = workflow.windows.iter().filter(|window| window.processor as u64 == own.processor);
    let down = there.map(|window| [window.begin.into(), window.end.into()]);
    let others = rows.iter().filter(|row| row.processor == own.processor);
    let busy = down.chain(others.map(|row| [row.start, row.finish]));
    let minutes = own.finish - own.start;
    let beside = busy.flat_map(|[begin, end]| [begin, end, begin.saturating_sub(minutes)]);
    let entering = workflow.edges.iter().filter(|edge| edge.to == task);
    let arrivals = entering.flat_map(|edge| {
        [0, edge.transfer].map(|transfer| rows[edge.from].finish + u64::from(transfer))
    });
    let around = beside.chain(arrivals).flat_map(|at| [at.saturating_sub(1), at, at + 1]);
    let mut starts: Vec<u64> = around.filter(|&start| start <= own.start + 1).collect();
    starts.extend([0, own.start, u64::MAX]);
    starts.sort();
    starts.dedup();
    starts
}

/// Whether the request has a plan in which some task runs elsewhere, or at other minutes, than it would in the changed
/// workflow with no deadline.
fn turned(request: &[u8], change: impl Fn(&mut Workflow)) -> bool {
    let Some(rows) = planned(request) else { return false };
    let mut workflow = read(request).expect("it has a plan");
    workflow.deadline = None;
    change(&mut workflow);
    let mut others = [Row::default(); 64];
    schedule(&workflow, &mut others);
    elsewhere(&rows, &others)
}

/// Whether some row has another processor, or other minutes, in these.
fn elsewhere(rows: &[Row], others: &[Row]) -> bool {
    let place = |row: &Row| (row.processor, row.start);
    rows.iter().zip(others).any(|(row, other)| place(row) != place(other))
}

/// Whether the request has a plan in which some task starts before one that was placed earlier on its processor, and both
/// take some time.
pub fn fills_a_gap(request: &[u8]) -> bool {
    let Some(rows) = planned(request) else { return false };
    let order = read(request).ok().and_then(|workflow| order(&workflow)).expect("it has a plan");
    let placed: Vec<&Row> = order.iter().map(|&i| &rows[i]).filter(|row| !marks(row)).collect();
    let in_a_gap = |k: usize| {
        let mut earlier = placed[..k].iter().filter(|row| row.processor == placed[k].processor);
        earlier.any(|row| placed[k].start < row.start)
    };
    (0..placed.len()).any(in_a_gap)
}

/// Whether the request has a plan in which some task costs more than its minutes: it is billed a minimum.
pub fn bills_a_minimum(request: &[u8]) -> bool {
    let Some(rows) = planned(request) else { return false };
    let Workflow { processors: m, prices, minutes, .. } = read(request).expect("it has a plan");
    let by_minutes = |i: usize, j: usize| u64::from(minutes[i * m + j] * prices[j]);
    (0..rows.len()).any(|i| rows[i].cost > by_minutes(i, rows[i].processor as usize))
}

/// Whether the request has a plan in which some task runs elsewhere, or at other minutes, than it would if nothing had a
/// minimum: the minimums turn a choice.
pub fn turned_by_minimums(request: &[u8]) -> bool {
    turned(request, |workflow| workflow.minimums.fill(0))
}

/// Whether the request has a plan in which some task starts at the minute at which a window of its processor ends, and
/// takes some time.
pub fn waits_for_a_window(request: &[u8]) -> bool {
    let Some(rows) = planned(request) else { return false };
    let windows = read(request).expect("it has a plan").windows;
    let waits = |row: &Row| {
        windows.iter().any(|window| {
            (window.processor as u64, u64::from(window.end)) == (row.processor, row.start)
        })
    };
    rows.iter().any(|row| !marks(row) && waits(row))
}

/// Whether the request has a plan in which some task runs elsewhere, or at other minutes, than it would if nothing were
/// ever down.
pub fn turned_by_windows(request: &[u8]) -> bool {
    turned(request, |workflow| workflow.windows.clear())
}

/// Whether the request has a plan, with a budget that a `K` sets, in which some task runs elsewhere, or at other minutes,
/// than in the cheapest plan and some than in the HEFT plan.
pub fn turned_by_share(request: &[u8]) -> bool {
    let Some(rows) = planned(request) else { return false };
    let workflow = read(request).expect("it has a plan");
    let other = |method| {
        let mut others = [Row::default(); 64];
        schedule_by(method, &workflow, &mut others);
        elsewhere(&rows, &others)
    };
    workflow.share.is_some() && other(Method::Cheapest) && other(Method::Heft)
}

/// Whether some task runs elsewhere, or at other minutes, in the HEFT plan of the request than in its cheapest plan.
pub fn methods_differ(request: &[u8]) -> bool {
    let (mut cheapest, mut heft) = ([Row::default(); 64], [Row::default(); 64]);
    plan_by(Method::Cheapest, request, &mut cheapest);
    plan_by(Method::Heft, request, &mut heft);
    elsewhere(&cheapest, &heft)
}

/// Whether the row is a marker's: its task takes no time on its processor.
fn marks(row: &Row) -> bool {
    row.start == row.finish
}

/// Whether the request has a plan with a marker.
pub fn has_a_marker(request: &[u8]) -> bool {
    planned(request).is_some_and(|rows| rows.iter().any(marks))
}

/// Whether the request has a plan with a marker in the midst of a window of its processor: after its begin, before its end.
pub fn marker_in_a_window(request: &[u8]) -> bool {
    let Some(rows) = planned(request) else { return false };
    let windows = read(request).expect("it has a plan").windows;
    let inside = |row: &Row| {
        windows.iter().any(|window| {
            let (begin, end) = (u64::from(window.begin), u64::from(window.end));
            window.processor as u64 == row.processor && begin < row.start && row.start < end
        })
    };
    rows.iter().any(|row| marks(row) && inside(row))
}

/// Whether the request has a plan with a marker in the midst of another row of its processor: after its start, before its
/// finish.
pub fn marker_in_a_row(request: &[u8]) -> bool {
    let Some(rows) = planned(request) else { return false };
    let inside = |row: &Row| {
        let mut there = rows.iter().filter(|other| other.processor == row.processor);
        there.any(|other| other.start < row.start && row.start < other.finish)
    };
    rows.iter().any(|row| marks(row) && inside(row))
}

/// Document 01's order: "Tasks are placed by falling R; equal R, lower number first."
fn order_before(ranks: &[i64]) -> Vec<usize> {
    let mut order: Vec<usize> = (0..ranks.len()).collect();
    order.sort_by_key(|&i| (Reverse(ranks[i]), i));
    order
}

/// Whether the request has a plan whose tasks are placed in another order than document 01's.
pub fn ordered_anew(request: &[u8]) -> bool {
    if planned(request).is_none() {
        return false;
    }
    let workflow = read(request).expect("it has a plan");
    let before = ranks(&workflow).map(|ranks| order_before(&ranks));
    order(&workflow) != before
}

/// Whether the request has a plan in which some task runs elsewhere, or at other minutes, than it would in document 01's
/// order.
pub fn turned_by_order(request: &[u8]) -> bool {
    let Some(rows) = planned(request) else { return false };
    let mut workflow = read(request).expect("it has a plan");
    workflow.deadline = None;
    let mut others = [Row::default(); 64];
    schedule_in(|ranks, _| order_before(ranks), Method::Hbcs, &workflow, &mut others);
    elsewhere(&rows, &others)
}

/// A good request of so many tasks and processors.
pub fn shaped(
    random: &mut Random,
    (n, m): (usize, usize),
    (graph, numbers, budget, deadline, least, down, without_time, between): Shape,
) -> Draft {
    let mut draft = Draft::new(20_000_000, &[], &[], &[]);
    draft.prices = prices(random, m, numbers);
    for i in 0..n {
        draft.tasks.push((format!("t{i}"), minutes(random, &draft.prices, numbers)));
    }
    let few = [random.within(0, 1_000) as u16, random.within(0, 30) as u16];
    for (from, to) in pairs(random, n, graph) {
        let transfer = match numbers {
            Numbers::Few => random.one_of(&few),
            Numbers::Equal => few[1],
            Numbers::Ends => random.one_of(&[0, 1_000]),
            Numbers::Gaps => random.within(0, 6) as u16,
            _ => random.often_an_end(0, 1_000) as u16,
        };
        draft.edges.push((from, to, transfer));
    }
    put_markers(random, &mut draft, without_time);
    draft.minimums = least_amounts(random, &draft, least);
    draft.windows = windows(random, &draft, down);
    let cheapest = cheapest_total(&draft);
    draft.budget = match budget {
        Budget::Plenty => 20_000_000,
        Budget::Cheapest => cheapest as u32,
        Budget::TooLow => cheapest.saturating_sub(1) as u32,
        Budget::Tight => random.within(cheapest, cheapest * 2).min(20_000_000) as u32,
    };
    let any = random.within(0, 1_000) as u16;
    draft = match between {
        Share::None => draft,
        Share::Lowest => draft.with_share(0),
        Share::One => draft.with_share(1),
        Share::Half => draft.with_share(500),
        Share::Almost => draft.with_share(999),
        Share::Highest => draft.with_share(1_000),
        Share::Any => draft.with_share(any),
    };
    draft.deadline = match deadline {
        Deadline::None => None,
        Deadline::Any => Some(random.within(1, 4_000) as u32),
        // A plan with windows might end later than any deadline, and one of markers alone before any.
        Deadline::Length => length(&draft).map(|length| length.clamp(1, 200_000) as u32),
        Deadline::TooEarly => {
            let later = length(&draft).filter(|&length| length > 1);
            later.map(|length| length.min(200_001) as u32 - 1)
        }
    };
    draft
}

/// The length of the plan, if there is one.
fn length(draft: &Draft) -> Option<u64> {
    match plan(&draft.bytes(), &mut [Row::default(); 64]) {
        Answer::Planned { length, .. } => Some(length),
        Answer::Refused { .. } => None,
    }
}

fn prices(random: &mut Random, m: usize, numbers: Numbers) -> Vec<u8> {
    let price = |random: &mut Random| match numbers {
        Numbers::Any => random.often_an_end(0, 100) as u8,
        Numbers::Few => random.one_of(&[1, 1, 2, 3]),
        Numbers::Equal => 7,
        Numbers::EqualCosts => random.one_of(&[1, 2, 4, 5, 10, 20]),
        Numbers::Free => 0,
        Numbers::Ends => random.one_of(&[0, 1, 100]),
        Numbers::Gaps => random.one_of(&[1, 1, 2]),
    };
    (0..m).map(|_| price(random)).collect()
}

/// The minutes of a task.
fn minutes(random: &mut Random, prices: &[u8], numbers: Numbers) -> Vec<u16> {
    let cost = 20 * random.within(1, 100) as u16;
    let quick_on = random.within(0, prices.len() as u64 - 1) as usize;
    let minutes = |(j, &price): (usize, &u8)| match numbers {
        Numbers::Any | Numbers::Free => random.often_an_end(1, 2_000) as u16,
        Numbers::Few => random.one_of(&[10, 20, 20]),
        Numbers::Equal => 30,
        Numbers::EqualCosts => cost / u16::from(price),
        Numbers::Ends => random.one_of(&[1, 2_000]),
        Numbers::Gaps if j == quick_on => random.within(1, 4) as u16,
        Numbers::Gaps => random.within(5, 12) as u16,
    };
    prices.iter().enumerate().map(minutes).collect()
}

/// Makes markers of some tasks, for the edges that the draft has.
fn put_markers(random: &mut Random, draft: &mut Draft, without_time: Markers) {
    let tie = random.one_in(2);
    match without_time {
        Markers::None => {}
        Markers::Ends => {
            for i in 0..draft.tasks.len() {
                let is = |end: u8| usize::from(end) == i;
                let waits = draft.edges.iter().any(|edge| is(edge.1));
                let is_waited_for = draft.edges.iter().any(|edge| is(edge.0));
                if !(waits && is_waited_for) {
                    make_marker(draft, i, tie);
                }
            }
        }
        Markers::Some => markers(random, draft, 3, false),
        Markers::Single => single_zeros(random, draft, 4),
        Markers::Tied => markers(random, draft, 2, true),
        Markers::All => markers(random, draft, 1, tie),
    }
}

/// The minimums, for the prices and minutes that the draft has.
fn least_amounts(random: &mut Random, draft: &Draft, least: Minimums) -> Vec<Option<u16>> {
    let m = draft.prices.len();
    // Something around what the minutes of a task cost on processor j, if there is one for which a minimum can decide.
    let near = |random: &mut Random, j: usize| {
        let by_minutes =
            |of_task: &(String, Vec<u16>)| u64::from(of_task.1[j]) * u64::from(draft.prices[j]);
        let costs: Vec<u64> =
            draft.tasks.iter().map(by_minutes).filter(|&cost| cost < 10_000).collect();
        match costs[..] {
            [] => random.within(0, 10_000),
            _ => (random.one_of(&costs) + random.within(0, 2)).saturating_sub(1),
        }
    };
    match least {
        Minimums::None => vec![None; m],
        Minimums::Near => minimums(random, m, near),
        Minimums::Same => {
            let on = random.within(0, m as u64 - 1) as usize;
            let same = if random.one_in(2) { near(random, on) } else { random.within(1, 10_000) };
            minimums(random, m, |_, _| same)
        }
        Minimums::Ends => minimums(random, m, |random, _| random.one_of(&[0, 1, 9_999, 10_000])),
    }
}

/// The windows, for the tasks, edges and minimums that the draft has.
fn windows(random: &mut Random, draft: &Draft, down: Windows) -> Vec<(u8, u32, u32)> {
    if down == Windows::None {
        return Vec::new();
    }
    const LAST: u64 = 20_000;
    let m = draft.prices.len();
    // The plan's minutes; with a cycle there is none.
    let plan = length(draft).unwrap_or(1_000).clamp(8, LAST);
    // The minutes of a task on processor j, one less or one more.
    let near = |random: &mut Random, j: usize| {
        let task = random.within(0, draft.tasks.len() as u64 - 1) as usize;
        (u64::from(draft.tasks[task].1[j]) + random.within(0, 2)).max(2) - 1
    };
    let between =
        |random: &mut Random, j: usize| if random.one_in(3) { 1 } else { near(random, j) };
    let anyone = random.within(0, m as u64 - 1) as usize;
    let same = random.one_in(2);
    let to = random.within(1, plan);
    let count = random.within(1, 4);
    let mut of = |j: usize| match down {
        Windows::None => Vec::new(),
        Windows::One if j != anyone => Vec::new(),
        Windows::One if same => vec![(j as u8, 0, to as u32)],
        Windows::One | Windows::Each => windows_of(random, j, 1, (0, plan)),
        Windows::Four => windows_of(random, j, 4, (0, plan)),
        Windows::AtFirst => {
            let to = if same { to } else { random.within(1, plan) };
            vec![(j as u8, 0, to as u32)]
        }
        Windows::Touching | Windows::Close => {
            let mut at = if random.one_in(3) { 0 } else { random.within(0, plan - 1) };
            let mut windows = Vec::new();
            while windows.len() < 4 && at < LAST {
                let end = (at + random.within(1, plan / 4)).min(LAST);
                windows.push((j as u8, at as u32, end as u32));
                at = end + if down == Windows::Close { between(random, j) } else { 0 };
            }
            windows
        }
        Windows::Far if random.one_in(3) => Vec::new(),
        Windows::Far => windows_of(random, j, count, (plan.min(LAST - 10), LAST)),
        Windows::Long if same && j == anyone => Vec::new(),
        Windows::Long => {
            let mut at = if random.one_in(2) { 0 } else { near(random, j) };
            let mut windows = Vec::new();
            for left in (0..count).rev() {
                let end = if left == 0 { LAST } else { at + random.within(1, 3_500) };
                windows.push((j as u8, at as u32, end as u32));
                at = end + near(random, j);
            }
            windows
        }
    };
    (0..m).flat_map(&mut of).collect()
}

/// The ends of the edges, rising.
fn pairs(random: &mut Random, n: usize, graph: Graph) -> Vec<(u8, u8)> {
    let mut order: Vec<u8> = (0..n as u8).collect();
    for i in (1..n).rev() {
        order.swap(i, random.within(0, i as u64) as usize);
    }
    // Places in the order, from the earlier to the later.
    let mut places: Vec<(usize, usize)> = Vec::new();
    match graph {
        Graph::Chain => places.extend((1..n).map(|i| (i - 1, i))),
        Graph::Fork => {
            places.extend((1..n).map(|i| (random.within(0, i as u64 - 1) as usize, i)));
        }
        Graph::Join => {
            places.extend((1..n).map(|i| (i - 1, random.within(i as u64, n as u64 - 1) as usize)))
        }
        Graph::Layers | Graph::Cycle => {
            let width = random.within(1, 8) as usize;
            for to in width..n {
                let first = (to / width - 1) * width;
                places.extend((first..first + width).filter(|_| random.one_in(2)).map(|i| (i, to)));
            }
        }
        Graph::Dense => {
            let chance = 1 + (n * n.saturating_sub(1) / 2) as u64 / 512;
            for to in 1..n {
                places.extend((0..to).filter(|_| random.one_in(chance)).map(|from| (from, to)));
            }
        }
        Graph::Loose if n > 1 => {
            for _ in 0..n / 3 + 1 {
                let to = random.within(1, n as u64 - 1);
                places.push((random.within(0, to - 1) as usize, to as usize));
            }
        }
        Graph::Loose => {}
    }
    if graph == Graph::Cycle && n > 1 {
        for _ in 0..random.within(1, 3) {
            let to = random.within(0, n as u64 - 2);
            places.push((random.within(to + 1, n as u64 - 1) as usize, to as usize));
        }
    }
    let mut pairs: Vec<(u8, u8)> =
        places.iter().map(|&(from, to)| (order[from], order[to])).collect();
    pairs.sort();
    pairs.dedup();
    while pairs.len() > 512 {
        pairs.remove(random.within(0, pairs.len() as u64 - 1) as usize);
    }
    pairs
}
