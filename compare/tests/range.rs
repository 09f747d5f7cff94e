//! A7 of document 02: the record `K`, the budget that it sets, the cheapest plan and the
//! HEFT plan asked for alone, and what these two cost. Each is on a request small enough
//! to be worked out by hand, but for the published one. Offsets in S with a `K`: H 0,
//! K 7, P 10 13, T 16, end 87.

mod common;

use common::run;
use compare::build::{d, h, k, p, q, sample, t, Draft};
use compare::{budget, label, plan, plan_by, range, range_text, read, samples, text, text_by};
use compare::{Answer, Costs, Method, Refusal, Row};

const METHODS: [Method; 3] = [Method::Hbcs, Method::Cheapest, Method::Heft];
const ALONE: [Method; 2] = [Method::Cheapest, Method::Heft];

/// A row content that no plan writes.
const KEPT: Row = Row { processor: 91, start: 92, finish: 93, cost: 94 };

/// (length, cost, left), and for each task (processor, start, finish, cost).
type Plan = ((u64, u64, u64), Vec<(u64, u64, u64, u64)>);

/// The plan by this method, if there is one, with rows from n on kept; else number and
/// place, with all of them kept.
fn asked(method: Method, draft: &Draft) -> Result<Plan, (u64, u64)> {
    let mut rows = [KEPT; 70];
    let answer = plan_by(method, &draft.bytes(), &mut rows);
    let n = match answer {
        Answer::Planned { n, .. } => n as usize,
        Answer::Refused { .. } => 0,
    };
    assert!(rows[..n].iter().all(|row| *row != KEPT) && rows[n..].iter().all(|row| *row == KEPT));
    match answer {
        Answer::Planned { length, cost, left, .. } => {
            let rows = rows[..n].iter();
            let rows = rows.map(|row| (row.processor, row.start, row.finish, row.cost));
            Ok(((length, cost, left), rows.collect()))
        }
        Answer::Refused { number, place } => Err((number, place)),
    }
}

fn planned(method: Method, draft: &Draft) -> Plan {
    asked(method, draft).unwrap_or_else(|refusal| panic!("{refusal:?}"))
}

/// What the cheapest plan and the HEFT plan cost.
fn costs(draft: &Draft) -> (u64, u64) {
    let Costs { cheapest, heft } = range(&draft.bytes()).unwrap();
    (cheapest, heft)
}

/// The budget in force.
fn in_force(draft: &Draft) -> u64 {
    budget(&read(&draft.bytes()).unwrap()).unwrap()
}

/// Refused in reading, by all that read alike.
fn refuses(request: &[u8], number: u64, place: usize) {
    let refusal = Refusal { number, place: place as u64 };
    assert_eq!(read(request), Err(refusal));
    assert_eq!(range(request), Err(refusal));
    let no = format!("no {number} {place}\n").into_bytes();
    assert_eq!(range_text(request), no);
    for method in METHODS {
        let mut rows = [KEPT; 64];
        assert_eq!(plan_by(method, request, &mut rows), refusal.into());
        assert!(rows.iter().all(|row| *row == KEPT));
        assert_eq!(text_by(method, request), no);
    }
    assert!(label(request, 0).is_empty());
}

/// Passes reading, and 9 does not come.
fn passes(request: &[u8]) {
    assert!(read(request).is_ok());
    let answer = plan(request, &mut [Row::default(); 64]);
    assert!(!matches!(answer, Answer::Refused { number: 1..=6 | 9, .. }), "{answer:?}");
}

/// S with a `K`, the budget in `H` 0.
fn shared(share: u16) -> Draft {
    sample(0).with_share(share)
}

/// S(24)'s rows, S(28)'s and S(100)'s.
fn s24() -> Vec<(u64, u64, u64, u64)> {
    vec![(0, 0, 10, 10), (0, 10, 18, 8), (1, 13, 15, 6)]
}
fn s28() -> Vec<(u64, u64, u64, u64)> {
    vec![(1, 0, 4, 12), (0, 6, 14, 8), (1, 4, 6, 6)]
}
fn s100() -> Vec<(u64, u64, u64, u64)> {
    vec![(1, 0, 4, 12), (1, 4, 8, 12), (1, 8, 10, 6)]
}

// ---- The record ----

#[test]
fn share_byte_for_byte() {
    let request = shared(667).bytes();
    let expected = b"H\x03\x02\0\0\0\0K\x9b\x02P\0\x01P\x01\x03\
        T\0prep    W\0\0\x0a\0W\0\x01\x04\0T\x01left    W\x01\0\x08\0W\x01\x01\x04\0\
        T\x02right   W\x02\0\x06\0W\x02\x01\x02\0E\0\x01\x02\0E\0\x02\x03\0Z";
    assert_eq!(request, expected);
    assert_eq!(request.len(), 87);
    let all = samples::all();
    assert!(all.contains(&("share", request.clone())));
    let workflow = read(&request).unwrap();
    assert_eq!((workflow.budget, workflow.share, workflow.deadline), (0, Some(667), None));
    assert_eq!(label(&request, 2), b"right");
    let dated = read(&Draft { deadline: Some(14), ..shared(667) }.bytes()).unwrap();
    assert_eq!((dated.budget, dated.share, dated.deadline), (0, Some(667), Some(14)));
}

#[test]
fn share_0_to_1_000() {
    for (share, good) in
        [(0, true), (1, true), (255, true), (256, true), (999, true), (1_000, true)]
            .into_iter()
            .chain([(1_001, false), (1_024, false), (0x8000, false), (65_535, false)])
    {
        if good {
            passes(&shared(share).bytes());
            assert_eq!(read(&shared(share).bytes()).unwrap().share, Some(share.into()));
        } else {
            refuses(&shared(share).bytes(), 4, 7);
            refuses(&Draft { deadline: Some(14), ..shared(share) }.bytes(), 4, 12);
        }
    }
}

/// "4 for a `K` out of range, or for a nonzero budget in `H`, at the `K` record" (A7).
#[test]
fn the_budget_beside_a_share_is_0() {
    for budget in [1, 28, 0x100, 0x1_0000, 0x100_0000, 20_000_000] {
        for share in [0, 667, 1_000, 1_001] {
            let draft = Draft { budget, ..shared(share) };
            refuses(&draft.bytes(), 4, 7);
            refuses(&Draft { deadline: Some(14), ..draft }.bytes(), 4, 12);
        }
    }
    // A budget out of its own range is refused at `H`.
    refuses(&Draft { budget: 20_000_001, ..shared(667) }.bytes(), 4, 0);
    // Without a `K` 0 is a budget as any other.
    assert_eq!(asked(Method::Hbcs, &sample(0)), Err((9, 24)));
}

/// "`H`; at most one `D`; at most one `K`; `P` or `Q`."
#[test]
fn where_a_share_stands() {
    // H, D, K, P, P, T and so on.
    let records = Draft { deadline: Some(14), ..shared(667) }.records();
    let offset = |k: usize| records[..k].concat().len();
    passes(&records.concat());
    // Before the `D`, which is then not due.
    let mut swapped = records.clone();
    swapped.swap(1, 2);
    refuses(&swapped.concat(), 2, 7 + 3);
    // A second one, before the `D` and behind the first, whatever it says.
    for share in [0, 667, 1_001] {
        for (at, place) in [(1, 7 + 3), (2, 12 + 3), (3, 12 + 3)] {
            let mut doubled = records.clone();
            doubled.insert(at, k(if at == 3 { share } else { 667 }));
            refuses(&doubled.concat(), 2, place);
        }
    }
    // A second `D`.
    let mut doubled = records.clone();
    doubled.insert(3, d(14));
    refuses(&doubled.concat(), 2, 12 + 3);
    // Before `H`, behind a processor's record, a `T`, a `W` and an `E`, and in place of each.
    for at in (0..records.len()).filter(|&at| !(1..=3).contains(&at)) {
        let mut inserted = records.clone();
        inserted.insert(at, k(667));
        refuses(&inserted.concat(), 2, offset(at));
        let mut changed = records.clone();
        changed[at] = k(667);
        refuses(&changed.concat(), 2, offset(at));
    }
    refuses(&[records.concat(), k(667)].concat(), 6, offset(records.len()));
    // In place of a `P` it is one; and there is one `P` less.
    let mut fewer = sample(0).records();
    fewer[1] = k(0);
    refuses(&fewer.concat(), 3, 10);
    // Any other record in its place, where a processor's is due.
    for (record, number) in [(h(3, 2, 0), 2), (t(0, "prep"), 2), (p(1, 3), 3), (q(0, 101, 0), 4)] {
        let mut changed = records.clone();
        changed[2] = record;
        refuses(&changed.concat(), number, 12);
    }
    // The first fault counts.
    let mut faults = records.clone();
    (faults[2], faults[3]) = (k(1_001), p(5, 101));
    refuses(&faults.concat(), 4, 12);
    faults[1] = d(0);
    refuses(&faults.concat(), 4, 7);
}

#[test]
fn share_cut_anywhere() {
    let plain = (shared(667).bytes(), vec![0, 7, 10, 13, 16]);
    let dated = (Draft { deadline: Some(14), ..shared(667) }.bytes(), vec![0, 7, 12, 15, 18, 21]);
    // Two cuts in the body, whatever stands there and in `H`.
    let bad = (Draft { budget: 28, ..shared(65_535) }.bytes()[..10].to_vec(), vec![0, 7]);
    for (request, offsets) in [plain, dated, bad] {
        for cut in 0..request.len().min(17) {
            let place = offsets.iter().copied().filter(|&at| at <= cut).max().unwrap();
            refuses(&request[..cut], 1, place);
        }
    }
}

// ---- The budget that it sets ----

#[test]
fn the_sample_with_shares() {
    assert_eq!(costs(&sample(0)), (24, 30));
    // 6 are between them. 666 are 3.996 and 667 are 4.002: rounded up, the first would be 28.
    let plans = [
        (0, 24, (18, 24, 0), s24()),
        (666, 27, (14, 26, 1), s28()),
        (667, 28, (14, 26, 2), s28()),
        (999, 29, (14, 26, 3), s28()),
        (1_000, 30, (10, 30, 0), s100()),
    ];
    for (share, budget, summary, rows) in plans {
        assert_eq!(in_force(&shared(share)), budget);
        assert_eq!(planned(Method::Hbcs, &shared(share)), (summary, rows));
        // As with that budget in `H`.
        assert_eq!(text(&shared(share).bytes()), text(&sample(budget as u32).bytes()));
        assert_eq!(in_force(&sample(budget as u32)), budget);
    }
    let expected = "plan 3 14 26 2\nprep 1 0 4 12\nleft 0 6 14 8\nright 1 4 6 6\n";
    assert_eq!(text(&shared(667).bytes()), expected.as_bytes());
    // Each budget from 24 on, from the first share on that gives it.
    for more in 0..=6 {
        let first = (0..=1_000).find(|&share| in_force(&shared(share)) == 24 + more).unwrap();
        assert_eq!(u64::from(first), (1_000 * more).div_ceil(6));
    }
}

#[test]
fn slip_a_share_of_the_whole_cost() {
    // 500 thousandths of what the HEFT plan costs are 15, which is refused with 9; on top of
    // 24 they are 39, with which all goes to processor 1.
    assert_eq!(in_force(&shared(500)), 27);
    assert_eq!(planned(Method::Hbcs, &shared(500)), ((14, 26, 1), s28()));
}

#[test]
fn share_and_deadline() {
    let dated =
        |share, deadline| asked(Method::Hbcs, &Draft { deadline: Some(deadline), ..shared(share) });
    assert_eq!(dated(667, 14), Ok(((14, 26, 2), s28())));
    assert_eq!(dated(667, 13), Err((11, 14)));
    assert_eq!(dated(1_000, 10), Ok(((10, 30, 0), s100())));
    assert_eq!(dated(1_000, 9), Err((11, 10)));
    assert_eq!(dated(0, 17), Err((11, 18)));
}

#[test]
fn share_of_a_range_of_nothing() {
    // One processor, one plan: the range is 7 to 7.
    let draft = Draft::new(0, &[1], &[&[3], &[4]], &[(0, 1, 5)]);
    assert_eq!(costs(&draft), (7, 7));
    for share in [0, 1, 999, 1_000] {
        let plan = planned(Method::Hbcs, &draft.clone().with_share(share));
        assert_eq!(plan, ((7, 7, 0), vec![(0, 0, 3, 3), (0, 3, 7, 4)]));
    }
    // All for nothing.
    let draft = Draft::new(0, &[0, 0], &[&[3, 4]], &[]);
    assert_eq!(costs(&draft), (0, 0));
    let plan = planned(Method::Hbcs, &draft.with_share(500));
    assert_eq!(plan, ((3, 0, 0), vec![(0, 0, 3, 0)]));
}

#[test]
fn at_1_000_the_plan_need_not_be_the_heft_plan() {
    // HEFT: both tasks on processor 1, for 30 and 42. With these 72 for a budget: task 0
    // has B 17, F 21, RCB 40, scores 34,248 on processor 0 and 25,704 on 1.
    let minutes: [&[u16]; 2] = [&[14, 10, 31], &[40, 14, 40]];
    let draft = Draft::new(0, &[1, 3, 1], &minutes, &[(0, 1, 0)]);
    let heft = ((24, 72, 0), vec![(1, 0, 10, 30), (1, 10, 24, 42)]);
    assert_eq!(planned(Method::Heft, &draft), heft);
    let cheapest = ((54, 54, 0), vec![(0, 0, 14, 14), (0, 14, 54, 40)]);
    assert_eq!(planned(Method::Cheapest, &draft), cheapest);
    let shared = draft.with_share(1_000);
    assert_eq!(in_force(&shared), 72);
    let plan = ((28, 56, 16), vec![(0, 0, 14, 14), (1, 14, 28, 42)]);
    assert_eq!(planned(Method::Hbcs, &shared), plan);
}

#[test]
fn share_beside_minimums_windows_and_markers() {
    // Processor 1 bills 10 for `right`: HEFT 12 + 12 + 10. Of 10 above 24, 199 are 1.
    let draft = sample(0).with_minimums(&[None, Some(10)]);
    assert_eq!(costs(&draft), (24, 34));
    let rows = vec![(0, 0, 10, 10), (0, 10, 18, 8), (0, 18, 24, 6)];
    assert_eq!(planned(Method::Cheapest, &draft), ((24, 24, 0), rows));
    let rows = vec![(1, 0, 4, 12), (1, 4, 8, 12), (1, 8, 10, 10)];
    assert_eq!(planned(Method::Heft, &draft), ((10, 34, 0), rows));
    assert_eq!(in_force(&draft.with_share(199)), 25);

    // Processor 0 is down from 7 to 9, processor 1 from 4 to 30.
    let draft = sample(0).with_windows(&[(0, 7, 9), (1, 4, 30)]);
    assert_eq!(costs(&draft), (24, 26));
    let rows = vec![(0, 9, 19, 10), (0, 19, 27, 8), (1, 30, 32, 6)];
    assert_eq!(planned(Method::Cheapest, &draft), ((32, 24, 0), rows));
    let rows = vec![(1, 0, 4, 12), (0, 9, 17, 8), (0, 17, 23, 6)];
    assert_eq!(planned(Method::Heft, &draft), ((23, 26, 0), rows.clone()));
    assert_eq!(planned(Method::Hbcs, &draft.with_share(1_000)), ((23, 26, 0), rows));

    // A marker has its data at 4 on processor 0, for 7, and at 6 on processor 1, for nothing.
    let draft = Draft::new(0, &[3, 9], &[&[4, 90], &[0, 0]], &[(0, 1, 2)]);
    let draft = draft.with_minimums(&[Some(7), None]);
    let (beside, moved) = (vec![(0, 0, 4, 12), (0, 4, 4, 7)], vec![(0, 0, 4, 12), (1, 6, 6, 0)]);
    assert_eq!(planned(Method::Cheapest, &draft), ((6, 12, 0), moved.clone()));
    assert_eq!(planned(Method::Heft, &draft), ((4, 19, 0), beside.clone()));
    // Of 7, 999 are 6: too little for it to stay beside the task.
    let with = |share| planned(Method::Hbcs, &draft.clone().with_share(share));
    assert_eq!(with(999), ((6, 12, 6), moved));
    assert_eq!(with(1_000), ((4, 19, 0), beside));
}

// ---- The two methods ----

#[test]
fn the_sample_by_either() {
    assert_eq!(planned(Method::Cheapest, &sample(28)), ((18, 24, 0), s24()));
    assert_eq!(planned(Method::Heft, &sample(28)), ((10, 30, 0), s100()));
    let printed = |method| String::from_utf8(text_by(method, &sample(28).bytes())).unwrap();
    let cheapest = "plan 3 18 24 0\nprep 0 0 10 10\nleft 0 10 18 8\nright 1 13 15 6\n";
    assert_eq!(printed(Method::Cheapest), cheapest);
    let heft = "plan 3 10 30 0\nprep 1 0 4 12\nleft 1 4 8 12\nright 1 8 10 6\n";
    assert_eq!(printed(Method::Heft), heft);
    assert_eq!(range_text(&sample(28).bytes()), b"range 24 30\n");
}

/// "Asked for alone, these two are held to no budget: refusals 1 to 8 only, budget left 0.
/// No deadline is held against them, and a `K` is read but sets nothing."
#[test]
fn asked_alone() {
    let (cheapest, heft) = (((18, 24, 0), s24()), ((10, 30, 0), s100()));
    let mut drafts = vec![shared(0), shared(667), shared(1_000)];
    drafts.extend([0, 23, 24, 28, 29, 30, 31, 20_000_000].map(sample));
    for draft in drafts {
        for deadline in [None, Some(1), Some(9), Some(10), Some(17), Some(18)] {
            let draft = Draft { deadline, ..draft.clone() };
            assert_eq!(planned(Method::Cheapest, &draft), cheapest);
            assert_eq!(planned(Method::Heft, &draft), heft);
            assert_eq!(range_text(&draft.bytes()), b"range 24 30\n");
        }
    }
    // Which HBCS refuses.
    assert_eq!(asked(Method::Hbcs, &sample(0)), Err((9, 24)));
    assert_eq!(asked(Method::Hbcs, &Draft { deadline: Some(9), ..sample(100) }), Err((11, 10)));
}

#[test]
fn too_few_rows_and_a_cycle() {
    let mut cyclic = sample(0);
    cyclic.edges.push((1, 0, 0));
    for draft in [sample(28), shared(667)] {
        for method in METHODS {
            for lent in 0..3 {
                let mut rows = vec![KEPT; lent];
                let answer = plan_by(method, &draft.bytes(), &mut rows);
                assert_eq!(answer, Answer::Refused { number: 7, place: 3 });
                assert!(rows.iter().all(|row| *row == KEPT));
            }
            let mut rows = [KEPT; 3];
            let answer = plan_by(method, &draft.bytes(), &mut rows);
            assert!(matches!(answer, Answer::Planned { n: 3, .. }));
            assert!(rows.iter().all(|row| *row != KEPT));
        }
        // The range lends as many as are needed.
        assert!(range(&draft.bytes()).is_ok());
    }
    for draft in [cyclic.clone(), cyclic.with_share(667)] {
        for method in METHODS {
            assert_eq!(asked(method, &draft), Err((8, 0)));
            let answer = plan_by(method, &draft.bytes(), &mut [KEPT; 2]);
            assert_eq!(answer, Answer::Refused { number: 7, place: 3 });
        }
        assert_eq!(range(&draft.bytes()), Err(Refusal { number: 8, place: 0 }));
        assert_eq!(range_text(&draft.bytes()), b"no 8 0\n");
        assert_eq!(budget(&read(&draft.bytes()).unwrap()), None);
    }
}

/// One task with these prices and minutes: where either method puts it.
fn taken(prices: &[u8], minutes: &[u16]) -> [u64; 2] {
    let draft = Draft::new(0, prices, &[minutes], &[]);
    ALONE.map(|method| planned(method, &draft).1[0].0)
}

#[test]
fn ties_of_the_cheapest() {
    // Costs 9 and 12, finishes 9 and 4.
    assert_eq!(taken(&[1, 3], &[9, 4]), [0, 1]);
    assert_eq!(taken(&[3, 1], &[4, 9]), [1, 0]);
    // Equal cost: the earliest finish.
    assert_eq!(taken(&[1, 2], &[10, 5]), [1, 1]);
    assert_eq!(taken(&[2, 1, 5], &[5, 10, 2]), [2, 2]);
    assert_eq!(taken(&[0, 0, 0], &[7, 9, 5]), [2, 2]);
    // Then the lower number.
    assert_eq!(taken(&[1, 1], &[5, 5]), [0, 0]);
    assert_eq!(taken(&[1, 2, 2], &[10, 5, 5]), [1, 1]);
    // A minimum makes costs equal: 10 and 10, finishes 5 and 4.
    let draft = Draft::new(0, &[2, 1], &[&[5, 4]], &[]).with_minimums(&[None, Some(10)]);
    assert_eq!(planned(Method::Cheapest, &draft), ((4, 10, 0), vec![(1, 0, 4, 10)]));
}

#[test]
fn ties_of_heft() {
    // Equal finish: the lower cost, whatever the number; then the lower number.
    assert_eq!(taken(&[2, 1], &[5, 5]), [1, 1]);
    assert_eq!(taken(&[1, 2], &[5, 5]), [0, 0]);
    assert_eq!(taken(&[9, 2, 2], &[5, 5, 5]), [1, 1]);
    // The earliest finish, however dear.
    assert_eq!(taken(&[1, 100], &[6, 5]), [0, 1]);
}

/// A finish is that on the processor as it is then: with what is placed there, the
/// transfers, gaps and windows.
#[test]
fn the_same_starts() {
    // Equal costs. Task 0 goes to 0, and 1, which is ready at 4 there and at 4 + 3 on
    // processor 1, to 1 if it is down until 8.
    let draft = Draft::new(0, &[1, 1], &[&[4, 9], &[5, 5]], &[(0, 1, 3)]);
    for method in ALONE {
        let rows = vec![(0, 0, 4, 4), (0, 4, 9, 5)];
        assert_eq!(planned(method, &draft), ((9, 9, 0), rows));
        let rows = vec![(0, 0, 4, 4), (1, 7, 12, 5)];
        let down = draft.clone().with_windows(&[(0, 4, 8)]);
        assert_eq!(planned(method, &down), ((12, 9, 0), rows));
    }
    // A gap: processor 1 is idle until 5, and task 2 takes it to the minute.
    let minutes: [&[u16]; 3] = [&[2, 20], &[20, 4], &[15, 5]];
    let draft = Draft::new(0, &[0, 0], &minutes, &[(0, 1, 3)]);
    for method in ALONE {
        let rows = vec![(0, 0, 2, 0), (1, 5, 9, 0), (1, 0, 5, 0)];
        assert_eq!(planned(method, &draft), ((9, 0, 0), rows));
    }
}

/// The order is that of the ranks, which do not know the method: a marker of a lower
/// number than its predecessor comes after it.
#[test]
fn the_same_order() {
    let draft = Draft::new(0, &[0], &[&[0], &[0], &[5]], &[(1, 0, 0), (2, 1, 0)]);
    for method in METHODS {
        let rows = vec![(0, 5, 5, 0), (0, 5, 5, 0), (0, 0, 5, 0)];
        assert_eq!(planned(method, &draft), ((5, 0, 0), rows));
    }
}

/// Document 004, table 4; the transfers are those of the figure. The prices are 3, 5 and
/// 7, and tasks and processors are numbered from 0.
#[test]
fn the_published_heft_plan() {
    let minutes: [&[u16]; 10] = [
        &[14, 16, 9],
        &[13, 19, 18],
        &[11, 13, 19],
        &[13, 8, 17],
        &[12, 13, 10],
        &[13, 16, 9],
        &[7, 15, 11],
        &[5, 11, 14],
        &[18, 12, 20],
        &[21, 7, 16],
    ];
    let edges = [
        (0, 1, 18),
        (0, 2, 12),
        (0, 3, 9),
        (0, 4, 11),
        (0, 5, 14),
        (1, 7, 19),
        (1, 8, 16),
        (2, 6, 23),
        (3, 7, 27),
        (3, 8, 23),
        (4, 8, 13),
        (5, 7, 15),
        (6, 9, 17),
        (7, 9, 11),
        (8, 9, 13),
    ];
    let draft = Draft::new(0, &[3, 5, 7], &minutes, &edges);
    let rows = vec![
        (2, 0, 9, 63),
        (0, 27, 40, 39),
        (2, 9, 28, 133),
        (1, 18, 26, 40),
        (2, 28, 38, 70),
        (1, 26, 42, 80),
        (2, 38, 49, 77),
        (0, 57, 62, 15),
        (1, 56, 68, 60),
        (1, 73, 80, 35),
    ];
    assert_eq!(planned(Method::Heft, &draft), ((80, 612, 0), rows));
}

// ---- Multiplied ----

/// The plan with all times by a, prices by b.
fn multiplied(draft: &Draft, a: u8, b: u8) -> Plan {
    planned(Method::Hbcs, &draft.times(a, b))
}

#[test]
fn the_ends_are_multiplied() {
    let rows = vec![(0, 0, 30, 60), (0, 30, 54, 48), (1, 39, 45, 36)];
    assert_eq!(multiplied(&shared(0), 3, 2), ((54, 144, 0), rows));
    let rows = vec![(1, 0, 12, 72), (1, 12, 24, 72), (1, 24, 30, 36)];
    assert_eq!(multiplied(&shared(1_000), 3, 2), ((30, 180, 0), rows));
}

#[test]
fn between_the_ends_floor_stands_outside() {
    // 999 of 6 are 5, and of 12 they are 11: the remainder is 3, and then 7 and not 6.
    assert_eq!(multiplied(&shared(999), 1, 1).0, (14, 26, 3));
    assert_eq!(multiplied(&shared(999), 1, 2).0, (14, 52, 7));
    // Where nothing is cut off, it is multiplied: 500 of 6 and of 36.
    assert_eq!(multiplied(&shared(500), 1, 1).0, (14, 26, 1));
    assert_eq!(multiplied(&shared(500), 3, 2).0, (42, 156, 6));
}

// ---- The program ----

#[test]
fn the_program_prints_what_is_asked() {
    let mut cyclic = sample(28);
    cyclic.edges.push((1, 0, 0));
    let requests = [sample(28), sample(0), shared(667), cyclic].map(|draft| draft.bytes());
    for request in requests.iter().map(|request| &request[..]).chain([&b""[..], b"H\x03"]) {
        let asked = [
            (&[][..], text(request)),
            (&["--cheapest"], text_by(Method::Cheapest, request)),
            (&["--heft"], text_by(Method::Heft, request)),
            (&["--range"], range_text(request)),
        ];
        for (words, expected) in asked {
            let output = run(words, request);
            assert!(output.status.success() && output.stderr.is_empty(), "{words:?}");
            assert_eq!(output.stdout, expected, "{words:?}");
        }
    }
    assert_eq!(run(&["--range"], &sample(28).bytes()).stdout, b"range 24 30\n");
    assert_eq!(run(&["--range"], b"").stdout, b"no 1 0\n");
    let more = [&shared(667).bytes()[..], &[b'K'; 20_000]].concat();
    for words in [&[][..], &["--cheapest"], &["--heft"], &["--range"]] {
        assert_eq!(run(words, &more).stdout, b"no 6 87\n");
    }
}

#[test]
fn a_wrong_call_of_the_program() {
    let calls: [&[&str]; 4] = [&["--best"], &["--cheapest", "--heft"], &["cheapest"], &[""]];
    let why: [&[&str]; 5] = [&[], &["1"], &["1", "0", "0"], &["left", "0"], &["1", "-1"]];
    let why = why.map(|words| [&["--why"], words].concat());
    for words in calls.into_iter().chain(why.iter().map(|words| &words[..])) {
        let output = run(words, &sample(28).bytes());
        assert_eq!(output.status.code(), Some(2), "{words:?}");
        assert!(output.stdout.is_empty() && !output.stderr.is_empty(), "{words:?}");
    }
}
