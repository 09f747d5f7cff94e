//! The exported planners and the range against the independent program: answers and all four buffers, for requests of
//! every shape and for damaged ones, with any number of rows lent.
use against::{columns_before, Columns, Driver, METHODS};
use compare::build::{sample, Draft};
use compare::random::{windows_of, Damage, Random};
use compare::shapes::{bills_a_minimum, fills_a_gap, of_every_shape, turned_by_minimums};
use compare::shapes::{has_a_marker, marker_in_a_row, marker_in_a_window};
use compare::shapes::{methods_differ, turned_by_share};
use compare::shapes::{ordered_anew, turned_by_order};
use compare::shapes::{turned_by_windows, waits_for_a_window, SHAPES, WINDOWS};
use compare::{Method, Row, REFUSALS};
use std::collections::BTreeMap;

/// How often each answer was met: by the numbers of refusals, and plans as 0.
type Met = BTreeMap<u64, usize>;

/// Holds the proved planners and the range against the independent program on each request, with buffers of these
/// lengths, and their numbers against the table: what HBCS gives is counted, and the others give 0 to 8 only.
fn agree(requests: impl IntoIterator<Item = (Vec<u8>, [usize; 4])>) -> Met {
    let (mut driver, mut met, mut met_alone) = (Driver::start(), Met::new(), Met::new());
    let mut requests = requests.into_iter().peekable();
    while requests.peek().is_some() {
        let batch: Vec<_> = requests.by_ref().take(64).collect();
        let questions: Vec<_> = batch.iter().map(|(request, lent)| (&request[..], *lent)).collect();
        for method in METHODS {
            let answers = driver.plan(method, &questions);
            for ((request, lent), (answer, columns)) in questions.iter().zip(answers) {
                let (theirs, their_columns) = plan(method, request, *lent);
                assert_eq!(answer, theirs, "{method:?}, lent {lent:?}, request {request:?}");
                assert_eq!(
                    columns, their_columns,
                    "{method:?}, lent {lent:?}, request {request:?}"
                );
                let met = if method == Method::Hbcs { &mut met } else { &mut met_alone };
                *met.entry(answer.number).or_default() += 1;
            }
        }
        let requests: Vec<&[u8]> = batch.iter().map(|(request, _)| &request[..]).collect();
        for (request, range) in requests.iter().zip(driver.range(&requests)) {
            assert_eq!(range, compare::range(request).into(), "request {request:?}");
            assert!(range.number <= 8 && range.number != 7, "request {request:?}");
        }
    }
    println!("{met:?}, alone {met_alone:?}");
    assert!(met.keys().all(|number| *number == 0 || REFUSALS.contains(number)), "{met:?}");
    assert!(met_alone.keys().all(|&number| number <= 8), "{met_alone:?}");
    met
}

/// Each of these answers was met so often, and no other.
fn each_often(met: &Met, numbers: &[u64], count: usize) {
    assert!(met.keys().eq(numbers), "{met:?}");
    assert!(met.values().all(|&met| met >= count), "{met:?}");
}

/// The independent program's answer by this method, with its rows field by field in buffers of these lengths. As many
/// rows are lent as the shortest buffer has numbers.
fn plan(method: Method, request: &[u8], lent: [usize; 4]) -> (against::Answer, Columns) {
    let mut columns = columns_before(lent);
    let mut rows: Vec<Row> = (0..*lent.iter().min().unwrap())
        .map(|k| Row {
            processor: columns[0][k],
            start: columns[1][k],
            finish: columns[2][k],
            cost: columns[3][k],
        })
        .collect();
    let answer = compare::plan_by(method, request, &mut rows);
    for (k, row) in rows.iter().enumerate() {
        let fields = [row.processor, row.start, row.finish, row.cost];
        columns.iter_mut().zip(fields).for_each(|(column, field)| column[k] = field);
    }
    (answer.into(), columns)
}

/// Rows for a request of n tasks: mostly enough, from 0 to 70, and one time in four not as many in each buffer.
fn lent(random: &mut Random, n: usize) -> [usize; 4] {
    let rows = if random.one_in(4) { random.within(0, 70) } else { random.within(n as u64, 70) };
    let mut lent = [rows as usize; 4];
    if random.one_in(4) {
        lent[random.within(0, 3) as usize] = random.within(0, 70) as usize;
    }
    lent
}

/// Good requests of every shape, and how many tasks each has.
fn good(seed: u64, count: usize) -> impl Iterator<Item = (Vec<u8>, usize)> {
    of_every_shape(seed, count).map(|draft| (draft.bytes(), draft.tasks.len()))
}

#[test]
fn the_sample() {
    let requests = (20..32).flat_map(|budget| (0..6).map(move |rows| (budget, rows)));
    let minimums =
        [[None; 2], [Some(0); 2], [None, Some(10)], [Some(7), None], [Some(11), Some(7)]];
    for minimums in minimums {
        let request = |budget| sample(budget).with_minimums(&minimums).bytes();
        agree(requests.clone().map(|(budget, rows)| (request(budget), [rows; 4])));
    }
}

/// The sample with every share, and with every budget beside one: 0 passes.
#[test]
fn the_sample_with_any_share() {
    let shared = |share| sample(0).with_share(share);
    let requests = (0..=1_010).map(|share| (shared(share).bytes(), [3; 4]));
    let met = agree(requests);
    assert!(met.into_iter().eq([(0, 1_001), (4, 10)]));
    let requests = (0..200).map(|budget| (Draft { budget, ..shared(667) }.bytes(), [3; 4]));
    let met = agree(requests);
    assert!(met.into_iter().eq([(0, 1), (4, 199)]));
}

/// Every share of ranges of any width, with minimums and windows.
#[test]
fn shares_of_many_ranges() {
    let mut random = Random(0x600d_5eed_0000_0006);
    let mut between = 0;
    let requests = (0..20_000).map(|_| {
        let (n, m) = (random.within(1, 6) as usize, random.within(2, 3) as usize);
        let mut draft = Draft::new(0, &[], &[], &[]);
        draft.prices = (0..m).map(|_| random.within(1, 20) as u8).collect();
        for i in 0..n {
            let minutes = (0..m).map(|_| random.within(0, 30) as u16).collect();
            draft.tasks.push((format!("t{i}"), minutes));
        }
        let pairs = (0..n as u8).flat_map(|from| (from + 1..n as u8).map(move |to| (from, to)));
        for (from, to) in pairs {
            if random.one_in(3) {
                draft.edges.push((from, to, random.within(0, 9) as u16));
            }
        }
        draft.minimums = (0..m).map(|_| Some(random.within(0, 60) as u16)).collect();
        let count = random.within(0, 2);
        draft.windows = windows_of(&mut random, 1, count, (0, 40));
        let request = draft.with_share(random.within(0, 1_000) as u16).bytes();
        between += usize::from(turned_by_share(&request));
        (request, [n; 4])
    });
    each_often(&agree(requests), &[0], 20_000);
    println!("{between} plans are neither the cheapest nor the HEFT plan");
    assert!(between >= 1_000, "{between}");
}

/// The sample with a window at every place of either processor, from one minute to twelve.
#[test]
fn the_sample_with_a_window_anywhere() {
    let windows = (0..2).flat_map(|j| {
        (0..24).flat_map(move |begin| (1..=12).map(move |minutes| (j, begin, begin + minutes)))
    });
    let requests = windows.flat_map(|window| {
        [23, 24, 28, 100].map(|budget| sample(budget).with_windows(&[window]).bytes())
    });
    each_often(&agree(requests.map(|request| (request, [3; 4]))), &[0, 9], 500);
}

/// One processor with up to four windows in its first minutes, and five tasks of a minute to six.
#[test]
fn windows_around_the_minutes() {
    let mut random = Random(0x600d_5eed_0000_0004);
    let requests = (0..20_000).map(|_| {
        let minutes: Vec<u16> = (0..5).map(|_| random.within(1, 6) as u16).collect();
        let of_tasks: Vec<&[u16]> = minutes.chunks(1).collect();
        let count = random.within(0, 4);
        let windows = windows_of(&mut random, 0, count, (0, 24));
        (Draft::new(0, &[0], &of_tasks, &[]).with_windows(&windows).bytes(), [5; 4])
    });
    each_often(&agree(requests), &[0], 20_000);
}

/// The sample with any of its six minutes 0, and every budget up to one more than it needs.
#[test]
fn the_sample_with_any_zeros() {
    let zeros = (0..64).flat_map(|zeros: usize| (0..32).map(move |budget| (zeros, budget)));
    for minimums in [[None; 2], [Some(1), None], [None, Some(10)], [Some(7), Some(1)]] {
        let requests = zeros.clone().map(|(zeros, budget)| {
            let mut draft = sample(budget).with_minimums(&minimums);
            for k in (0..6).filter(|k| zeros >> k & 1 == 1) {
                draft.tasks[k / 2].1[k % 2] = 0;
            }
            (draft.bytes(), [3; 4])
        });
        each_often(&agree(requests), &[0, 9], 300);
    }
}

/// Up to nine tasks on up to three processors, numbered in any order; many minutes and transfers are 0, so that markers
/// stand in windows and rows, and many tasks have the rank of one that they wait for.
#[test]
fn markers_among_windows_and_rows() {
    let mut random = Random(0x600d_5eed_0000_0005);
    let (mut marked, mut in_windows, mut in_rows, mut anew, mut turned) = (0, 0, 0, 0, 0);
    let requests = (0..40_000).map(|_| {
        let (n, m) = (random.within(3, 9) as usize, random.within(1, 3) as usize);
        let mut draft = Draft::new(0, &vec![0; m], &[], &[]);
        for i in 0..n {
            let all = random.one_in(3);
            let mut time = || if all || random.one_in(6) { 0 } else { random.within(1, 9) as u16 };
            draft.tasks.push((format!("t{i}"), (0..m).map(|_| time()).collect()));
        }
        let mut order: Vec<u8> = (0..n as u8).collect();
        for i in (1..n).rev() {
            order.swap(i, random.within(0, i as u64) as usize);
        }
        for (from, to) in (1..n).flat_map(|to| (0..to).map(move |from| (from, to))) {
            if random.one_in(3) {
                let transfer = random.one_of(&[0, 0, 0, 1, 3, 5]);
                draft.edges.push((order[from], order[to], transfer));
            }
        }
        draft.edges.sort();
        for j in 0..m {
            let count = random.within(0, 2);
            draft.windows.extend(windows_of(&mut random, j, count, (0, 20)));
        }
        let request = draft.bytes();
        marked += usize::from(has_a_marker(&request));
        in_windows += usize::from(marker_in_a_window(&request));
        in_rows += usize::from(marker_in_a_row(&request));
        anew += usize::from(ordered_anew(&request));
        turned += usize::from(turned_by_order(&request));
        (request, [n; 4])
    });
    each_often(&agree(requests), &[0], 40_000);
    println!("{marked} plans have a marker, {in_windows} one in the midst of a window, {in_rows} one in the midst of a row");
    println!("{anew} are placed in another order than document 01's, {turned} are others in that");
    assert!(marked >= 20_000, "{marked} plans have a marker");
    assert!(in_windows >= 2_000, "{in_windows} plans have a marker in the midst of a window");
    assert!(in_rows >= 1_000, "{in_rows} plans have a marker in the midst of a row");
    assert!(anew >= 4_000 && turned >= 800, "{anew} ordered anew, {turned} turned by it");
}

/// One processor, one task of 12 by its minutes, and minimums around that; and with a price of 0.
#[test]
fn minimums_around_the_minutes() {
    let request = |price: u8, minimum: u16, budget: u32| {
        Draft::new(budget, &[price], &[&[4]], &[]).with_minimums(&[Some(minimum)]).bytes()
    };
    let requests = [0, 3].into_iter().flat_map(|price| {
        (0..20).flat_map(move |minimum| (0..20).map(move |budget| (price, minimum, budget)))
    });
    let ends = [9_999, 10_000].map(|minimum| (100, minimum, 10_000));
    let requests = requests.chain(ends);
    let met =
        agree(requests.map(|(price, minimum, budget)| (request(price, minimum, budget), [1; 4])));
    each_often(&met, &[0, 9], 100);
}

#[test]
fn good_requests_of_every_shape() {
    let mut random = Random(0x600d_5eed_0000_0001);
    let (mut gaps, mut billed, mut turned, mut waiting, mut moved) = (0, 0, 0, 0, 0);
    let (mut marked, mut in_windows, mut in_rows, mut anew, mut reordered) = (0, 0, 0, 0, 0);
    let (mut between, mut differ) = (0, 0);
    let met = agree(good(0x600d_5eed_0000_0002, WINDOWS.len() * SHAPES).map(|(request, n)| {
        let lent = lent(&mut random, n);
        if lent.iter().all(|&rows| rows >= n) {
            gaps += usize::from(fills_a_gap(&request));
            billed += usize::from(bills_a_minimum(&request));
            turned += usize::from(turned_by_minimums(&request));
            waiting += usize::from(waits_for_a_window(&request));
            moved += usize::from(turned_by_windows(&request));
            marked += usize::from(has_a_marker(&request));
            in_windows += usize::from(marker_in_a_window(&request));
            in_rows += usize::from(marker_in_a_row(&request));
            anew += usize::from(ordered_anew(&request));
            reordered += usize::from(turned_by_order(&request));
            between += usize::from(turned_by_share(&request));
            differ += usize::from(methods_differ(&request));
        }
        (request, lent)
    }));
    each_often(&met, &[0, 7, 8, 9, 11], 1_000);
    println!("{gaps} plans have a task in a gap");
    println!("{billed} have one that is billed a minimum, {turned} are others without minimums");
    println!(
        "{waiting} have one that starts where a window ends, {moved} are others without windows"
    );
    println!("{marked} have a marker, {in_windows} one in the midst of a window, {in_rows} one in the midst of a row");
    println!(
        "{anew} are placed in another order than document 01's, {reordered} are others in that"
    );
    assert!(gaps >= 2_000, "{gaps} plans have a task in a gap");
    assert!(billed >= 2_000, "{billed} plans have a task that is billed a minimum");
    assert!(turned >= 2_000, "{turned} plans are others without minimums");
    assert!(waiting >= 3_000, "{waiting} plans have a task that starts where a window ends");
    assert!(moved >= 4_000, "{moved} plans are others without windows");
    assert!(marked >= 4_000, "{marked} plans have a marker");
    assert!(in_windows >= 200, "{in_windows} plans have a marker in the midst of a window");
    assert!(in_rows >= 150, "{in_rows} plans have a marker in the midst of a row");
    println!("{between} have a share and are neither the cheapest nor the HEFT plan; these two differ in {differ}");
    assert!(anew >= 1_000 && reordered >= 200, "{anew} ordered anew, {reordered} turned by it");
    assert!(between >= 400, "{between} plans with a share are neither of the two others");
    assert!(differ >= 8_000, "in {differ} the two others differ");
}

#[test]
fn damaged_requests() {
    let mut random = Random(0xda4a_6ed0_0000_0001);
    let (mut at_q, mut at_m, mut at_k) = (Met::new(), Met::new(), Met::new());
    let good = good(0xda4a_6ed0_0000_0002, WINDOWS.len() * SHAPES);
    let met = agree(good.enumerate().map(|(k, (mut request, n))| {
        // One further in each round, so that a sort of windows has every kind of damage.
        let turn = k + k / Damage::ALL.len();
        Damage::ALL[turn % Damage::ALL.len()].to(&mut random, &mut request);
        let lent = lent(&mut random, n);
        if let Err(refusal) = compare::read(&request) {
            match request.get(refusal.place as usize) {
                Some(b'Q') => *at_q.entry(refusal.number).or_default() += 1,
                Some(b'M') => *at_m.entry(refusal.number).or_default() += 1,
                Some(b'K') => *at_k.entry(refusal.number).or_default() += 1,
                _ => {}
            }
        }
        (request, lent)
    }));
    each_often(&met, &[0, 1, 2, 3, 4, 5, 6, 7, 8, 9, 11], 30);
    println!("at a Q: {at_q:?}; at an M: {at_m:?}; at a K: {at_k:?}");
    each_often(&at_q, &[1, 2, 3, 4, 6], 30);
    each_often(&at_m, &[1, 2, 3, 4, 6], 30);
    // Few are cut in its two bytes.
    for (number, count) in [(1, 4), (2, 30), (4, 30), (6, 30)] {
        assert!(at_k.get(&number).is_some_and(|&met| met >= count), "{at_k:?}");
    }
}

#[test]
fn every_number_of_rows() {
    let mut random = Random(0x40e5_5eed_0000_0001);
    // A step that has no divisor with the number of any part of a shape, so that all of each are met.
    let requests: Vec<_> = good(0x40e5_5eed_0000_0002, SHAPES).step_by(13).collect();
    let met = agree(requests.into_iter().flat_map(|(request, n)| {
        let longest = random.within(0, 70) as usize;
        (0..71).map(move |rows| {
            let mut lent = [rows; 4];
            lent[n % 4] = rows.max(longest);
            (request.clone(), lent)
        })
    }));
    assert!(met.contains_key(&0) && met.contains_key(&7), "{met:?}");
}

/// The text by each method, with room for all of it and some bytes more, and with one byte too little.
#[test]
fn texts() {
    let mut driver = Driver::start();
    let mut random = Random(0x7e87_5eed_0000_0001);
    let mut requests: Vec<Vec<u8>> =
        good(0x7e87_5eed_0000_0002, 2 * SHAPES).map(|(request, _)| request).collect();
    for (k, request) in requests.iter_mut().enumerate().filter(|(k, _)| k % 3 == 0) {
        Damage::ALL[k / 3 % Damage::ALL.len()].to(&mut random, request);
    }
    for (batch, method) in requests.chunks(64).flat_map(|batch| METHODS.map(|by| (batch, by))) {
        let texts: Vec<Vec<u8>> =
            batch.iter().map(|request| compare::text_by(method, request)).collect();
        let rooms = |less: usize, more: usize| -> Vec<(&[u8], usize)> {
            let room = |(request, text): (_, &Vec<u8>)| (request, text.len() - less + more);
            batch.iter().map(|request| &request[..]).zip(&texts).map(room).collect()
        };
        let enough = driver.print(method, &rooms(0, 9));
        for ((length, room), text) in enough.into_iter().zip(&texts) {
            assert_eq!((length, &room[..length]), (text.len(), &text[..]));
            assert_eq!(&room[length..], b"#########");
        }
        let too_little = driver.print(method, &rooms(1, 0));
        for ((length, room), text) in too_little.into_iter().zip(&texts) {
            assert_eq!(length, text.len());
            assert!(room.iter().all(|&b| b == b'#'));
        }
    }
}

#[test]
fn null_slices_are_empty_ones() {
    let (answers, range, reason, reading, lengths) = Driver::start().nothing();
    assert_eq!(answers, [against::Answer { number: 1, ..Default::default() }; 3]);
    assert_eq!(range, against::Costs { number: 1, ..Default::default() });
    assert_eq!(reason, against::Reason { number: 1, ..Default::default() });
    assert_eq!(reading, against::Reading { number: 1, ..Default::default() });
    let text = b"no 1 0\n".len();
    assert_eq!(lengths, [0, 0, text, text, text, 0]);
}
