//! Ranks, ties, minimums, windows, markers and the choice of a processor, each on a
//! request small enough to be worked out by hand. The first five are the "Slips that
//! look right" of document 01; the comments say what the slip would answer.

use compare::build::{sample, Draft};
use compare::{order, plan, ranks, read, Answer, Row};

/// (length, cost, left), and for each task (processor, start, finish, cost).
type Plan = ((u64, u64, u64), Vec<(u64, u64, u64, u64)>);

fn planned(draft: &Draft) -> Plan {
    let mut rows = [Row::default(); 64];
    match plan(&draft.bytes(), &mut rows) {
        Answer::Planned { n, length, cost, left } => {
            let rows = rows[..n as usize].iter();
            let rows = rows.map(|row| (row.processor, row.start, row.finish, row.cost));
            ((length, cost, left), rows.collect())
        }
        refusal => panic!("{refusal:?}"),
    }
}

fn ranks_of(draft: &Draft) -> Vec<i64> {
    ranks(&read(&draft.bytes()).unwrap()).unwrap()
}

/// The tasks in the order in which they are placed.
fn order_of(draft: &Draft) -> Vec<usize> {
    order(&read(&draft.bytes()).unwrap()).unwrap()
}

// ---- Slips ----

#[test]
fn slip_rounding_the_mean() {
    // R 2 and 3, so task 1 goes first. Means rounded down are 1 and 1, and
    // task 0 would go first: both on processor 0, length 2.
    let down = Draft::new(0, &[0, 0], &[&[1, 1], &[1, 2]], &[]);
    assert_eq!(ranks_of(&down), [2, 3]);
    assert_eq!(planned(&down), ((1, 0, 0), vec![(1, 0, 1, 0), (0, 0, 1, 0)]));
    assert_eq!(planned(&down.times(2, 1)), ((2, 0, 0), vec![(1, 0, 2, 0), (0, 0, 2, 0)]));

    // R 3 and 4, so task 1 goes first. Means rounded up are 2 and 2, and the
    // processors would be 0 and 1.
    let up = Draft::new(0, &[0, 0], &[&[1, 2], &[2, 2]], &[]);
    assert_eq!(ranks_of(&up), [3, 4]);
    assert_eq!(planned(&up), ((2, 0, 0), vec![(1, 0, 2, 0), (0, 0, 2, 0)]));
    assert_eq!(planned(&up.times(2, 1)), ((4, 0, 0), vec![(1, 0, 4, 0), (0, 0, 4, 0)]));
}

#[test]
fn slip_counting_the_task_in_hand_inside_rcb() {
    // RB - RCB for prep is 24 - 14, just its lowest cost; with prep inside RCB
    // it would be 0 and leave no processor for prep.
    let rows = vec![(0, 0, 10, 10), (0, 10, 18, 8), (1, 13, 15, 6)];
    assert_eq!(planned(&sample(24)), ((18, 24, 0), rows));
}

#[test]
fn slip_best_only_among_affordable_processors() {
    // Costs 20, 10, 100. Best is processor 2 though 100 is above the budget, so
    // 0 and 1 may be taken; both score 0 and finish at 10. Best among the
    // affordable ones would be 1, and 0 with its cost of 20 shut out.
    let draft = Draft::new(50, &[2, 1, 20], &[&[10, 10, 5]], &[]);
    assert_eq!(planned(&draft), ((10, 20, 30), vec![(0, 0, 10, 20)]));
}

#[test]
fn slip_transfer_on_the_same_processor() {
    // Task 1 would start at 8.
    let draft = Draft::new(10, &[1], &[&[3], &[4]], &[(0, 1, 5)]);
    assert_eq!(planned(&draft), ((7, 7, 3), vec![(0, 0, 3, 3), (0, 3, 7, 4)]));
}

#[test]
fn slip_rb_at_the_whole_budget() {
    // Left would score 672 on processor 1 against 144 on 0, and the cost be 30.
    let rows = vec![(1, 0, 4, 12), (0, 6, 14, 8), (1, 4, 6, 6)];
    assert_eq!(planned(&sample(28)), ((14, 26, 2), rows));
}

// ---- Ranks and placing order ----

#[test]
fn rank_takes_the_largest_way_out() {
    // m 2: R(3) 2, R(2) 20, R(1) 4 + 2 x 9 + 2, R(0) 2 + the larger of
    // 2 x 1 + 24 and 2 x 2 + 20.
    let minutes: [&[u16]; 4] = [&[1, 1], &[2, 2], &[10, 10], &[1, 1]];
    let draft = Draft::new(100, &[1, 1], &minutes, &[(0, 1, 1), (0, 2, 2), (1, 3, 9)]);
    assert_eq!(ranks_of(&draft), [28, 24, 20, 2]);
}

#[test]
fn edges_may_lead_to_lower_numbers() {
    let draft = Draft::new(9, &[1], &[&[1], &[3], &[5]], &[(1, 0, 7), (2, 1, 0)]);
    assert_eq!(ranks_of(&draft), [1, 11, 16]);
    let rows = vec![(0, 8, 9, 1), (0, 5, 8, 3), (0, 0, 5, 5)];
    assert_eq!(planned(&draft), ((9, 9, 0), rows));
}

#[test]
fn tie_of_ranks_goes_to_the_lower_number() {
    // R 5, 7, 5, 7: placed as 1, 3, 0, 2.
    let draft = Draft::new(0, &[0], &[&[5], &[7], &[5], &[7]], &[]);
    assert_eq!(order_of(&draft), [1, 3, 0, 2]);
    let rows = vec![(0, 14, 19, 0), (0, 0, 7, 0), (0, 19, 24, 0), (0, 7, 14, 0)];
    assert_eq!(planned(&draft), ((24, 0, 0), rows));
}

// ---- Start ----

#[test]
fn data_is_ready_with_the_last_predecessor() {
    // Everything is free. Tasks 0 and 1 run side by side until 6 and 5; task 2
    // has its data at 6 + 4 on processor 1 and at 5 + 2, after 6, on 0.
    let minutes: [&[u16]; 3] = [&[6, 9], &[5, 5], &[1, 1]];
    let draft = Draft::new(0, &[0, 0], &minutes, &[(0, 2, 4), (1, 2, 2)]);
    assert_eq!(planned(&draft), ((8, 0, 0), vec![(0, 0, 6, 0), (1, 0, 5, 0), (0, 7, 8, 0)]));
}

// ---- Gaps ----

/// Everything is free. Task 0 runs on processor 0 until 2; task 1, quick only
/// on processor 1, waits there for its data and runs for 4 minutes from
/// 2 + transfer on. The other tasks are quick on processor 1 as well.
fn with_a_gap(transfer: u16, others: &[&[u16]], edges: &[(u8, u8, u16)]) -> Draft {
    let minutes = [&[&[2, 20][..], &[20, 4]], others].concat();
    Draft::new(0, &[0, 0], &minutes, &[&[(0, 1, transfer)], edges].concat())
}

#[test]
fn gap_of_exactly_the_minutes_is_used() {
    // Processor 1 is idle until 5. Behind task 1, task 2 would end at 14.
    let rows = vec![(0, 0, 2, 0), (1, 5, 9, 0), (1, 0, 5, 0)];
    assert_eq!(planned(&with_a_gap(3, &[&[15, 5]], &[])), ((9, 0, 0), rows));
}

#[test]
fn gap_one_minute_short_is_not_used() {
    // The gap ends at 4, or task 2 takes 6 minutes.
    let rows = vec![(0, 0, 2, 0), (1, 4, 8, 0), (1, 8, 13, 0)];
    assert_eq!(planned(&with_a_gap(2, &[&[15, 5]], &[])), ((13, 0, 0), rows));
    let rows = vec![(0, 0, 2, 0), (1, 5, 9, 0), (1, 9, 15, 0)];
    assert_eq!(planned(&with_a_gap(3, &[&[15, 6]], &[])), ((15, 0, 0), rows));
}

#[test]
fn gap_before_the_first_row() {
    let rows = vec![(0, 0, 2, 0), (1, 5, 9, 0), (1, 0, 3, 0)];
    assert_eq!(planned(&with_a_gap(3, &[&[15, 3]], &[])), ((9, 0, 0), rows));
    // S(24) leaves processor 1 idle until 13. A last task, costing 3 on either,
    // starts there at 0 and not at 15 behind `right`.
    let mut draft = sample(27);
    draft.tasks.push(("tiny".to_string(), vec![3, 1]));
    let rows = vec![(0, 0, 10, 10), (0, 10, 18, 8), (1, 13, 15, 6), (1, 0, 1, 3)];
    assert_eq!(planned(&draft), ((18, 27, 0), rows));
}

#[test]
fn gap_between_two_rows() {
    // R 58, 24, 28, 19: task 2 goes before task 1, and processor 1 is idle
    // from 3 to 8. Behind task 1, task 3 would end at 16.
    let rows = vec![(0, 0, 2, 0), (1, 8, 12, 0), (1, 0, 3, 0), (1, 3, 7, 0)];
    let draft = with_a_gap(6, &[&[25, 3], &[15, 4]], &[]);
    assert_eq!(ranks_of(&draft), [58, 24, 28, 19]);
    assert_eq!(planned(&draft), ((12, 0, 0), rows));
    // The gap to the minute, and one minute short.
    let rows = vec![(0, 0, 2, 0), (1, 8, 12, 0), (1, 0, 3, 0), (1, 3, 8, 0)];
    assert_eq!(planned(&with_a_gap(6, &[&[25, 3], &[18, 5]], &[])), ((12, 0, 0), rows));
    let rows = vec![(0, 0, 2, 0), (1, 8, 12, 0), (1, 0, 3, 0), (1, 12, 18, 0)];
    assert_eq!(planned(&with_a_gap(6, &[&[25, 3], &[17, 6]], &[])), ((18, 0, 0), rows));
}

#[test]
fn tie_of_gaps_goes_to_the_earlier() {
    // Task 2 has its data on processor 1 at 14, which is idle until 5 and from
    // 9 to 14: five minutes each.
    let rows = vec![(0, 0, 2, 0), (1, 5, 9, 0), (1, 14, 17, 0), (1, 0, 3, 0)];
    let draft = with_a_gap(3, &[&[20, 3], &[19, 3]], &[(0, 2, 12)]);
    assert_eq!(planned(&draft), ((17, 0, 0), rows));
    // With the first gap of two minutes, the second is taken.
    let rows = vec![(0, 0, 2, 0), (1, 2, 6, 0), (1, 14, 17, 0), (1, 6, 9, 0)];
    let draft = with_a_gap(0, &[&[20, 3], &[19, 3]], &[(0, 2, 12)]);
    assert_eq!(planned(&draft), ((17, 0, 0), rows));
}

#[test]
fn gap_is_used_from_ready_on() {
    // Processor 1 is idle until 11, and task 2 has its data there at 5.
    let rows = vec![(0, 0, 2, 0), (1, 11, 15, 0), (1, 5, 9, 0)];
    assert_eq!(planned(&with_a_gap(9, &[&[19, 4]], &[(0, 2, 3)])), ((15, 0, 0), rows));
    // Ready at 2 in a gap until 5: room for 3 minutes. Ready at 3: too little.
    let rows = vec![(0, 0, 2, 0), (1, 5, 9, 0), (1, 2, 5, 0)];
    assert_eq!(planned(&with_a_gap(3, &[&[19, 3]], &[(0, 2, 0)])), ((9, 0, 0), rows));
    let rows = vec![(0, 0, 2, 0), (1, 5, 9, 0), (1, 9, 12, 0)];
    assert_eq!(planned(&with_a_gap(3, &[&[19, 3]], &[(0, 2, 1)])), ((12, 0, 0), rows));
}

#[test]
fn gap_that_opens_after_ready() {
    // Task 3 has its data on processor 1 at 5, which is idle from 6 to 11.
    let rows = vec![(0, 0, 2, 0), (1, 11, 15, 0), (1, 0, 6, 0), (1, 6, 10, 0)];
    let draft = with_a_gap(9, &[&[25, 6], &[19, 4]], &[(0, 3, 3)]);
    assert_eq!(planned(&draft), ((15, 0, 0), rows));
}

#[test]
fn gap_before_ready_is_not_used() {
    // Processor 1 is idle until 5, but task 2 has its data there at 8.
    let rows = vec![(0, 0, 2, 0), (1, 5, 9, 0), (1, 9, 12, 0)];
    assert_eq!(planned(&with_a_gap(3, &[&[19, 3]], &[(0, 2, 6)])), ((12, 0, 0), rows));
}

#[test]
fn what_is_left_of_a_gap() {
    // Task 3 goes first and leaves 3 to 5 for task 2, to the minute.
    let rows = vec![(0, 0, 2, 0), (1, 5, 9, 0), (1, 3, 5, 0), (1, 0, 3, 0)];
    assert_eq!(planned(&with_a_gap(3, &[&[15, 2], &[15, 3]], &[])), ((9, 0, 0), rows));
    // Task 2 leaves nothing for task 3.
    let rows = vec![(0, 0, 2, 0), (1, 5, 9, 0), (1, 0, 5, 0), (1, 9, 14, 0)];
    assert_eq!(planned(&with_a_gap(3, &[&[15, 5], &[15, 5]], &[])), ((14, 0, 0), rows));
    // Ready at 4, task 2 leaves 0 to 4 before it, and 8 to 11 behind it for a
    // task that has its data at 7.
    let rows = vec![(0, 0, 2, 0), (1, 11, 15, 0), (1, 4, 8, 0), (1, 0, 4, 0)];
    let draft = with_a_gap(9, &[&[19, 4], &[18, 4]], &[(0, 2, 2)]);
    assert_eq!(planned(&draft), ((15, 0, 0), rows));
    let rows = vec![(0, 0, 2, 0), (1, 11, 15, 0), (1, 4, 8, 0), (1, 8, 11, 0)];
    let draft = with_a_gap(9, &[&[19, 4], &[19, 3]], &[(0, 2, 2), (0, 3, 5)]);
    assert_eq!(planned(&draft), ((15, 0, 0), rows));
}

#[test]
fn gap_changes_the_choice() {
    // Behind task 1, task 2 would end at 14, and at 11 on processor 0.
    let rows = vec![(0, 0, 2, 0), (1, 5, 9, 0), (1, 0, 5, 0)];
    assert_eq!(planned(&with_a_gap(3, &[&[9, 5]], &[])), ((9, 0, 0), rows));
}

// ---- Minimums ----

/// One task of 4 minutes at a price of 3, with such a minimum and budget.
fn minutes_for_12(minimum: Option<u16>, budget: u32) -> Draft {
    Draft::new(budget, &[3], &[&[4]], &[]).with_minimums(&[minimum])
}

fn refusal(draft: &Draft) -> (u64, u64) {
    match plan(&draft.bytes(), &mut [Row::default(); 64]) {
        Answer::Refused { number, place } => (number, place),
        plan => panic!("{plan:?}"),
    }
}

#[test]
fn minimum_around_the_minutes() {
    // One below and equal to them it decides nothing; one above it does. Added
    // to them it would be 23, 24 and 25.
    for (minimum, cost) in [(None, 12), (Some(0), 12), (Some(11), 12), (Some(12), 12)] {
        let draft = minutes_for_12(minimum, 20);
        assert_eq!(planned(&draft), ((4, cost, 20 - cost), vec![(0, 0, 4, cost)]));
    }
    assert_eq!(planned(&minutes_for_12(Some(13), 20)), ((4, 13, 7), vec![(0, 0, 4, 13)]));
    // The cheapest total knows it.
    assert_eq!(planned(&minutes_for_12(Some(12), 12)), ((4, 12, 0), vec![(0, 0, 4, 12)]));
    assert_eq!(refusal(&minutes_for_12(Some(13), 12)), (9, 13));
    assert_eq!(planned(&minutes_for_12(Some(13), 13)), ((4, 13, 0), vec![(0, 0, 4, 13)]));
}

#[test]
fn minimum_with_a_price_of_0() {
    // It is billed for each task, however long, and not once for a processor.
    let draft = |budget| {
        let minutes: [&[u16]; 3] = [&[2_000], &[7], &[1]];
        Draft::new(budget, &[0], &minutes, &[]).with_minimums(&[Some(5)])
    };
    let rows = vec![(0, 0, 2_000, 5), (0, 2_000, 2_007, 5), (0, 2_007, 2_008, 5)];
    assert_eq!(planned(&draft(15)), ((2_008, 15, 0), rows));
    assert_eq!(refusal(&draft(14)), (9, 15));
}

#[test]
fn minimum_of_its_own_processor_alone() {
    // The long task goes to processor 0, a `P`; the short ones to processor 1
    // for its minimum of 9. Taken on processor 0 too, it would make the first 9.
    let minutes: [&[u16]; 3] = [&[5, 90], &[5, 1], &[6, 1]];
    let draft = Draft::new(100, &[1, 1], &minutes, &[]).with_minimums(&[None, Some(9)]);
    assert_eq!(ranks_of(&draft), [95, 6, 7]);
    let rows = vec![(0, 0, 5, 5), (1, 1, 2, 9), (1, 0, 1, 9)];
    assert_eq!(planned(&draft), ((5, 23, 77), rows));
    // With 5 + 5 + 6 to spend all go to processor 0; the slip would refuse it.
    let draft = Draft { budget: 16, ..draft };
    let rows = vec![(0, 0, 5, 5), (0, 11, 16, 5), (0, 5, 11, 6)];
    assert_eq!(planned(&draft), ((16, 16, 0), rows));
}

#[test]
fn minimum_turns_the_choice() {
    // Processor 1 finishes first, for 5. With 6 to spend a minimum of 6 is paid
    // there; one of 7 is too dear, and processor 0 is taken for 6.
    let draft = |minimum| Draft::new(6, &[1, 1], &[&[6, 5]], &[]).with_minimums(&[None, minimum]);
    assert_eq!(planned(&draft(None)), ((5, 5, 1), vec![(1, 0, 5, 5)]));
    assert_eq!(planned(&draft(Some(6))), ((5, 6, 0), vec![(1, 0, 5, 6)]));
    assert_eq!(planned(&draft(Some(7))), ((6, 6, 0), vec![(0, 0, 6, 6)]));
}

#[test]
fn minimum_opens_the_choice() {
    // Task 0: costs 14, 10, 31, finishes 14, 10, 31. Processor 1 finishes first
    // and is the cheapest. With a minimum of 30 there, 0 may be taken: B 17, F 21,
    // RB 80, RCB 30, scores 33,200 and 28,560.
    let minutes: [&[u16]; 2] = [&[14, 10, 31], &[40, 14, 40]];
    let draft = Draft::new(80, &[1, 1, 1], &minutes, &[(0, 1, 0)]);
    assert_eq!(planned(&draft), ((24, 24, 56), vec![(1, 0, 10, 10), (1, 10, 24, 14)]));
    let draft = draft.with_minimums(&[None, Some(30), None]);
    assert_eq!(planned(&draft), ((28, 44, 36), vec![(0, 0, 14, 14), (1, 14, 28, 30)]));
}

#[test]
fn minimum_turns_the_score() {
    // The same finishes, costs 14, 30, 31 without a minimum: processor 0, as in
    // `f_is_over_all_processors`. With one of 29 there, B 2, its score is 3,560
    // against 3,360; with one of 30, B 1, 1,360 against 1,680.
    let minutes: [&[u16]; 2] = [&[14, 10, 31], &[40, 14, 40]];
    let draft = |minimum| {
        let draft = Draft::new(80, &[1, 3, 1], &minutes, &[(0, 1, 0)]);
        draft.with_minimums(&[Some(minimum), None, Some(0)])
    };
    assert_eq!(planned(&draft(29)), ((28, 71, 9), vec![(0, 0, 14, 29), (1, 14, 28, 42)]));
    assert_eq!(planned(&draft(30)), ((24, 72, 8), vec![(1, 0, 10, 30), (1, 10, 24, 42)]));
}

#[test]
fn minimum_makes_costs_equal() {
    // Both finish at 5, for 10 and 5: processor 1. With a minimum of 10 both cost
    // 10, and the lower number wins; with 9 processor 1 is the cheaper still.
    let draft = |minimum| Draft::new(100, &[2, 1], &[&[5, 5]], &[]).with_minimums(&[None, minimum]);
    assert_eq!(planned(&draft(None)), ((5, 5, 95), vec![(1, 0, 5, 5)]));
    assert_eq!(planned(&draft(Some(9))), ((5, 9, 91), vec![(1, 0, 5, 9)]));
    assert_eq!(planned(&draft(Some(10))), ((5, 10, 90), vec![(0, 0, 5, 10)]));
    assert_eq!(planned(&draft(Some(11))), ((5, 10, 90), vec![(0, 0, 5, 10)]));
}

#[test]
fn minimum_counts_in_what_must_be_left() {
    // Task 1 costs 3 on processor 0 and 2 on processor 1, or 3 with a minimum of
    // 3. Then 3 must be left for it and not 2, and of 8 at most 5 may be spent on
    // task 0: 6 on the faster processor 1 is too dear.
    let minutes: [&[u16]; 2] = [&[5, 3], &[3, 1]];
    let draft =
        |least| Draft::new(8, &[1, 2], &minutes, &[(0, 1, 0)]).with_minimums(&[Some(0), least]);
    let rows = vec![(1, 0, 3, 6), (1, 3, 4, 2)];
    assert_eq!(planned(&draft(None)), ((4, 8, 0), rows));
    let rows = vec![(0, 0, 5, 5), (1, 5, 6, 3)];
    assert_eq!(planned(&draft(Some(3))), ((6, 8, 0), rows));
}

#[test]
fn minimum_leaves_ranks_and_starts() {
    let draft = sample(100).with_minimums(&[Some(10_000), Some(7)]);
    assert_eq!(ranks_of(&draft), ranks_of(&sample(100)));
    // All on processor 1, as without them, and `right` for 7 and not for 6.
    let rows = vec![(1, 0, 4, 12), (1, 4, 8, 12), (1, 8, 10, 7)];
    assert_eq!(planned(&draft), ((10, 31, 69), rows));
}

#[test]
fn minimums_are_multiplied_by_both() {
    let draft = sample(28).with_minimums(&[None, Some(10)]);
    let rows = vec![(1, 0, 4, 12), (0, 6, 14, 8), (0, 14, 20, 6)];
    assert_eq!(planned(&draft), ((20, 26, 2), rows));
    let rows = vec![(1, 0, 8, 24), (0, 12, 28, 16), (0, 28, 40, 12)];
    assert_eq!(planned(&draft.times(2, 1)), ((40, 52, 4), rows));
    let rows = vec![(1, 0, 4, 24), (0, 6, 14, 16), (0, 14, 20, 12)];
    assert_eq!(planned(&draft.times(1, 2)), ((20, 52, 4), rows));
    // Left at 10 in either, it would let `right` onto processor 1 for 12.
    let rows = vec![(1, 0, 8, 24), (0, 12, 28, 16), (1, 8, 12, 12)];
    let left = draft.times(2, 1).with_minimums(&[None, Some(10)]);
    assert_eq!(planned(&left), ((28, 52, 4), rows));
    let rows = vec![(1, 0, 4, 24), (0, 6, 14, 16), (1, 4, 6, 12)];
    let left = draft.times(1, 2).with_minimums(&[None, Some(10)]);
    assert_eq!(planned(&left), ((14, 52, 4), rows));
}

#[test]
fn multiplied_out_of_range() {
    // 10,000 passes; multiplied it does not, with two bytes for it or without.
    for (minimum, a, b) in [(10_000, 1, 2), (10_000, 2, 1), (5_001, 2, 1), (10_000, 7, 1)] {
        let draft = sample(28).with_minimums(&[None, Some(minimum)]);
        assert!(read(&draft.bytes()).is_ok());
        assert_eq!(refusal(&draft.times(a, b)), (4, 10));
    }
    let draft = sample(28).with_minimums(&[None, Some(5_000)]);
    assert!(read(&draft.times(2, 1).bytes()).is_ok());
}

// ---- Windows ----

/// One processor, which is down in these minutes; everything is free, and tasks
/// take so long.
fn on_one(minutes: &[u16], down: &[(u32, u32)]) -> Draft {
    let minutes: Vec<&[u16]> = minutes.chunks(1).collect();
    let windows: Vec<_> = down.iter().map(|&(begin, end)| (0, begin, end)).collect();
    Draft::new(0, &[0], &minutes, &[]).with_windows(&windows)
}

/// When each of its tasks starts.
fn starts(draft: &Draft) -> Vec<u64> {
    planned(draft).1.iter().map(|row| row.1).collect()
}

#[test]
fn window_at_0() {
    assert_eq!(planned(&on_one(&[5], &[(0, 7)])), ((12, 0, 0), vec![(0, 7, 12, 0)]));
    assert_eq!(planned(&on_one(&[5], &[(0, 1)])), ((6, 0, 0), vec![(0, 1, 6, 0)]));
    let latest = planned(&on_one(&[2_000], &[(0, 20_000)]));
    assert_eq!(latest, ((22_000, 0, 0), vec![(0, 20_000, 22_000, 0)]));
}

#[test]
fn window_that_a_task_just_fits_before() {
    assert_eq!(planned(&on_one(&[5], &[(5, 9)])), ((5, 0, 0), vec![(0, 0, 5, 0)]));
    // One minute too long, or the window one minute earlier.
    assert_eq!(planned(&on_one(&[6], &[(5, 9)])), ((15, 0, 0), vec![(0, 9, 15, 0)]));
    assert_eq!(planned(&on_one(&[5], &[(4, 9)])), ((14, 0, 0), vec![(0, 9, 14, 0)]));
    // A task is not interrupted: not even a window of a minute stands inside it.
    assert_eq!(starts(&on_one(&[5], &[(4, 5)])), [5]);
    assert_eq!(starts(&on_one(&[5], &[(1, 2)])), [2]);
}

#[test]
fn between_two_windows() {
    assert_eq!(planned(&on_one(&[5], &[(0, 3), (8, 12)])), ((8, 0, 0), vec![(0, 3, 8, 0)]));
    assert_eq!(starts(&on_one(&[4], &[(0, 3), (8, 12)])), [3]);
    assert_eq!(planned(&on_one(&[6], &[(0, 3), (8, 12)])), ((18, 0, 0), vec![(0, 12, 18, 0)]));
    // Too long for the first gap and for the second.
    assert_eq!(starts(&on_one(&[3], &[(1, 4), (6, 9)])), [9]);
    assert_eq!(starts(&on_one(&[2], &[(1, 4), (6, 9)])), [4]);
    assert_eq!(starts(&on_one(&[1], &[(1, 4), (6, 9)])), [0]);
}

#[test]
fn behind_a_row_and_before_a_window() {
    // Placed in this order: 4, then 3 or 4 minutes, then 1.
    assert_eq!(starts(&on_one(&[4, 3, 1], &[(7, 9)])), [0, 4, 9]);
    assert_eq!(starts(&on_one(&[4, 4, 1], &[(7, 9)])), [0, 9, 4]);
    assert_eq!(starts(&on_one(&[4, 3, 1], &[(8, 9)])), [0, 4, 7]);
}

#[test]
fn behind_a_window_and_before_a_row() {
    // Task 1 runs on processor 1 from 5 to 9, which is down until 2.
    let rows = vec![(0, 0, 2, 0), (1, 5, 9, 0), (1, 2, 5, 0)];
    let draft = with_a_gap(3, &[&[15, 3]], &[]).with_windows(&[(1, 0, 2)]);
    assert_eq!(planned(&draft), ((9, 0, 0), rows));
    // A minute too long, by its minutes or by the window.
    let rows = vec![(0, 0, 2, 0), (1, 5, 9, 0), (1, 9, 13, 0)];
    let draft = with_a_gap(3, &[&[15, 4]], &[]).with_windows(&[(1, 0, 2)]);
    assert_eq!(planned(&draft), ((13, 0, 0), rows));
    let rows = vec![(0, 0, 2, 0), (1, 5, 9, 0), (1, 9, 12, 0)];
    let draft = with_a_gap(3, &[&[15, 3]], &[]).with_windows(&[(1, 0, 3)]);
    assert_eq!(planned(&draft), ((12, 0, 0), rows));
}

#[test]
fn window_and_when_the_data_is_ready() {
    // Task 1 has its data on processor 1 at 5 and takes 4 minutes.
    let task_1 = |windows: &[(u8, u32, u32)]| {
        let draft = with_a_gap(3, &[], &[]).with_windows(windows);
        planned(&draft).1[1]
    };
    assert_eq!(task_1(&[(1, 9, 12)]), (1, 5, 9, 0)); // right behind it
    assert_eq!(task_1(&[(1, 8, 12)]), (1, 12, 16, 0)); // in its last minute
    assert_eq!(task_1(&[(1, 4, 5)]), (1, 5, 9, 0)); // right before it
    assert_eq!(task_1(&[(1, 4, 6)]), (1, 6, 10, 0)); // in its first minute
    assert_eq!(task_1(&[(1, 0, 5), (1, 9, 12)]), (1, 5, 9, 0)); // on both sides
    assert_eq!(task_1(&[(1, 6, 7)]), (1, 7, 11, 0)); // in the middle
    assert_eq!(task_1(&[(1, 0, 1), (1, 2, 3)]), (1, 5, 9, 0)); // long before
                                                               // A task that follows on the same processor waits as well.
    let draft = Draft::new(0, &[0], &[&[2], &[3]], &[(0, 1, 9)]);
    assert_eq!(starts(&draft.clone().with_windows(&[(0, 2, 4)])), [0, 4]);
    assert_eq!(starts(&draft.with_windows(&[(0, 5, 6)])), [0, 2]);
}

#[test]
fn all_down_at_first() {
    let draft = Draft::new(0, &[0, 0], &[&[2, 5]], &[]);
    let to_10 = draft.clone().with_windows(&[(0, 0, 10), (1, 0, 10)]);
    assert_eq!(planned(&to_10), ((12, 0, 0), vec![(0, 10, 12, 0)]));
    let sooner = draft.with_windows(&[(0, 0, 10), (1, 0, 6)]);
    assert_eq!(planned(&sooner), ((11, 0, 0), vec![(1, 6, 11, 0)]));
    // The minutes before the first start count, against the deadline too.
    assert_eq!(refusal(&Draft { deadline: Some(10), ..sooner.clone() }), (11, 11));
    assert_eq!(planned(&Draft { deadline: Some(11), ..sooner.clone() }), planned(&sooner));
}

#[test]
fn window_moves_the_choice() {
    // Processor 0 would be finished at 5, processor 1 at 6.
    let draft =
        |windows: &[(u8, u32, u32)]| Draft::new(0, &[0, 0], &[&[5, 6]], &[]).with_windows(windows);
    assert_eq!(planned(&draft(&[])), ((5, 0, 0), vec![(0, 0, 5, 0)]));
    assert_eq!(planned(&draft(&[(0, 5, 8)])), ((5, 0, 0), vec![(0, 0, 5, 0)]));
    assert_eq!(planned(&draft(&[(0, 4, 8)])), ((6, 0, 0), vec![(1, 0, 6, 0)]));
    // One minute later both end at 6, and the lower number wins; two minutes do move it.
    assert_eq!(planned(&draft(&[(0, 0, 1)])), ((6, 0, 0), vec![(0, 1, 6, 0)]));
    assert_eq!(planned(&draft(&[(0, 0, 2)])), ((6, 0, 0), vec![(1, 0, 6, 0)]));
}

#[test]
fn window_of_another_processor() {
    let draft = Draft::new(0, &[0, 0], &[&[5, 6]], &[]);
    for windows in [&[(1, 0, 9)][..], &[(1, 2, 3), (1, 4, 20_000)]] {
        let draft = draft.clone().with_windows(windows);
        assert_eq!(planned(&draft), ((5, 0, 0), vec![(0, 0, 5, 0)]));
    }
}

#[test]
fn window_of_a_processor_that_is_not_taken() {
    // Task 0: costs 14, 30, 14, finishes 14, 10 and on processor 2 its 14 minutes
    // behind the window; B 16, RB 80, RCB 40. Down until 4 it ends at 18: F 8 and
    // scores of 10,240 on 0 and 1, of which 1 finishes first. Down until 5, F 9,
    // they are 12,160 and 11,520.
    let minutes: [&[u16]; 2] = [&[14, 10, 14], &[40, 14, 40]];
    let draft = Draft::new(80, &[1, 3, 1], &minutes, &[(0, 1, 0)]);
    let rows = vec![(1, 0, 10, 30), (1, 10, 24, 42)];
    assert_eq!(planned(&draft), ((24, 72, 8), rows.clone()));
    assert_eq!(planned(&draft.clone().with_windows(&[(2, 0, 4)])), ((24, 72, 8), rows));
    let rows = vec![(0, 0, 14, 14), (1, 14, 28, 42)];
    assert_eq!(planned(&draft.with_windows(&[(2, 0, 5)])), ((28, 56, 24), rows));
}

#[test]
fn windows_that_touch() {
    // As one window from 3 to 9.
    for down in [&[(3, 9)][..], &[(3, 5), (5, 9)], &[(3, 4), (4, 5), (5, 6), (6, 9)]] {
        assert_eq!(starts(&on_one(&[3], down)), [0]);
        assert_eq!(starts(&on_one(&[4], down)), [9]);
        assert_eq!(starts(&on_one(&[3, 1], down)), [0, 9]);
    }
}

#[test]
fn four_windows_of_a_processor() {
    let four = [(1, 2), (3, 4), (5, 6), (7, 8)];
    assert_eq!(starts(&on_one(&[1; 6], &four)), [0, 2, 4, 6, 8, 9]);
    assert_eq!(starts(&on_one(&[2, 1], &four)), [8, 0]);
    // Each of them holds, not the first alone.
    for k in 0..4 {
        let mut three = four.to_vec();
        three.remove(k);
        assert_eq!(starts(&on_one(&[3], &three)), [[0, 2, 4, 6][k]]);
    }
    let five = [&four[..], &[(9, 10)]].concat();
    assert_eq!(refusal(&on_one(&[1], &five)), (4, 7 + 3 + 4 * 10));
}

#[test]
fn windows_leave_ranks_and_costs() {
    let draft = sample(28).with_windows(&[(0, 7, 9), (1, 4, 30)]);
    assert_eq!(ranks_of(&draft), ranks_of(&sample(28)));
    // `left` has its data at 6, waits until 9 and costs what it cost; `right` is
    // behind it on processor 0, where it costs 6 too.
    let rows = vec![(1, 0, 4, 12), (0, 9, 17, 8), (0, 17, 23, 6)];
    assert_eq!(planned(&draft), ((23, 26, 2), rows));
    // The cheapest total does not know windows.
    let down = [(0, 0, 20_000), (1, 0, 20_000)];
    assert_eq!(refusal(&sample(23).with_windows(&down)), (9, 24));
    let rows = vec![(0, 20_000, 20_010, 10), (0, 20_010, 20_018, 8), (1, 20_013, 20_015, 6)];
    assert_eq!(planned(&sample(24).with_windows(&down)), ((20_018, 24, 0), rows));
}

#[test]
fn windows_behind_the_plan() {
    // From the minute on at which each processor has done its last task: the plan
    // is S(28)'s, and it is its finish that is held against the deadline.
    let draft = sample(28).with_windows(&[(0, 14, 20_000), (1, 6, 20_000)]);
    let rows = vec![(1, 0, 4, 12), (0, 6, 14, 8), (1, 4, 6, 6)];
    assert_eq!(planned(&Draft { deadline: Some(14), ..draft }), ((14, 26, 2), rows));
    // One minute earlier on processor 0: `left` no longer fits there, and 10 are
    // too few for processor 1.
    let draft = sample(28).with_windows(&[(0, 13, 20_000), (1, 6, 20_000)]);
    let rows = vec![(1, 0, 4, 12), (0, 20_000, 20_008, 8), (1, 4, 6, 6)];
    assert_eq!(planned(&draft), ((20_008, 26, 2), rows));
}

#[test]
fn windows_are_multiplied_by_a() {
    let draft = sample(28).with_windows(&[(0, 7, 9), (1, 4, 30)]);
    let more = draft.times(3, 2);
    assert_eq!(more.windows, [(0, 21, 27), (1, 12, 90)]);
    let rows = vec![(1, 0, 12, 72), (0, 27, 51, 48), (0, 51, 69, 36)];
    assert_eq!(planned(&more), ((69, 156, 12), rows));
    let rows = vec![(1, 0, 4, 24), (0, 9, 17, 16), (0, 17, 23, 12)];
    assert_eq!(planned(&draft.times(1, 2)), ((23, 52, 4), rows));
    // Left as they were, `prep` would fit before neither: it would be finished at
    // 39 on processor 0, and at 42 on processor 1 for more.
    let rows = vec![(0, 9, 39, 60), (1, 45, 57, 72), (0, 39, 57, 36)];
    assert_eq!(planned(&more.with_windows(&draft.windows)), ((57, 168, 0), rows));
}

#[test]
fn windows_multiplied_out_of_range() {
    let draft = |end| sample(28).with_windows(&[(1, 4, end)]);
    assert!(read(&draft(10_000).times(2, 1).bytes()).is_ok());
    assert!(read(&draft(10_001).bytes()).is_ok());
    assert_eq!(refusal(&draft(10_001).times(2, 1)), (4, 13));
    assert!(read(&draft(20_000).times(1, 7).bytes()).is_ok());
    assert_eq!(refusal(&draft(20_000).times(2, 1)), (4, 13));
}

// ---- Markers ----

#[test]
fn all_minutes_0() {
    // All are at 0 on processor 0, where no transfer counts.
    let minutes: [&[u16]; 3] = [&[0, 0]; 3];
    let draft = Draft::new(28, &[1, 3], &minutes, &[(0, 1, 2), (0, 2, 3)]);
    assert_eq!(ranks_of(&draft), [6, 0, 0]);
    assert_eq!(planned(&draft), ((0, 0, 28), vec![(0, 0, 0, 0); 3]));
    let draft = Draft { budget: 0, ..draft };
    assert_eq!(planned(&draft), ((0, 0, 0), vec![(0, 0, 0, 0); 3]));
    // With a deadline, which is at least 1, and where all are down.
    let down = draft.clone().with_windows(&[(0, 0, 20_000), (1, 0, 20_000)]);
    let dated = Draft { deadline: Some(1), ..down };
    assert_eq!(planned(&dated), ((0, 0, 0), vec![(0, 0, 0, 0); 3]));
    // Every task of the most tasks on the most processors.
    let minutes = [0; 16];
    let most = Draft::new(0, &[100; 16], &[&minutes[..]; 64], &[]);
    assert_eq!(planned(&most), ((0, 0, 0), vec![(0, 0, 0, 0); 64]));
    // A cycle is one without a minute, too.
    let mut cyclic = draft;
    cyclic.edges.push((2, 0, 0));
    assert_eq!(refusal(&cyclic), (8, 0));
}

#[test]
fn marker_between_tasks_of_equal_rank() {
    // R 5 for all: task 0 waits for the marker 2. So 1, then 2, which opens 0, and
    // then 0 before 3. Document 01's order is by number: 0, 1 and 3 at 0, 5 and 10.
    let draft = Draft::new(0, &[0], &[&[5], &[5], &[0], &[5]], &[(2, 0, 0)]);
    assert_eq!(ranks_of(&draft), [5, 5, 5, 5]);
    assert_eq!(order_of(&draft), [1, 2, 0, 3]);
    assert_eq!(starts(&draft), [5, 0, 0, 10]);
    // With a transfer the marker's rank is higher, and it goes first.
    let draft = Draft::new(0, &[0], &[&[5], &[5], &[0], &[5]], &[(2, 0, 1)]);
    assert_eq!(ranks_of(&draft), [5, 5, 6, 5]);
    assert_eq!(order_of(&draft), [2, 0, 1, 3]);
    assert_eq!(starts(&draft), [0, 5, 0, 10]);
}

#[test]
fn marker_before_a_task_of_lower_number() {
    // A first task that takes no time, numbered last: R 9, 9, 4, 9. Document 01's
    // order has 0 and 1 before it.
    let minutes: [&[u16]; 4] = [&[9], &[5], &[4], &[0]];
    let draft = Draft::new(0, &[0], &minutes, &[(1, 2, 0), (3, 0, 0), (3, 1, 0)]);
    assert_eq!(ranks_of(&draft), [9, 9, 4, 9]);
    assert_eq!(order_of(&draft), [3, 0, 1, 2]);
    assert_eq!(starts(&draft), [0, 9, 14, 0]);
}

#[test]
fn marker_with_a_lower_number_than_its_predecessor() {
    // 2 before 1 before 0, the last two of rank 0. Document 01's order has 0 before
    // 1, which would put it at 0, before its data is ready.
    let draft = Draft::new(0, &[0], &[&[0], &[0], &[5]], &[(1, 0, 0), (2, 1, 0)]);
    assert_eq!(ranks_of(&draft), [0, 0, 5]);
    assert_eq!(order_of(&draft), [2, 1, 0]);
    assert_eq!(planned(&draft), ((5, 0, 0), vec![(0, 5, 5, 0), (0, 5, 5, 0), (0, 0, 5, 0)]));
    // A chain of them against the numbers, behind one task.
    let minutes = [&[[0]; 63][..], &[[2_000]]].concat();
    let minutes: Vec<&[u16]> = minutes.iter().map(|of_task| &of_task[..]).collect();
    let edges: Vec<_> = (1..64).map(|i| (i, i - 1, 0)).collect();
    let draft = Draft::new(0, &[0], &minutes, &edges);
    assert_eq!(order_of(&draft), (0..64).rev().collect::<Vec<_>>());
    let rows = [vec![(0, 2_000, 2_000, 0); 63], vec![(0, 0, 2_000, 0)]].concat();
    assert_eq!(planned(&draft), ((2_000, 0, 0), rows));
}

#[test]
fn marker_with_a_predecessor_that_is_placed_late() {
    // Task 0 waits for 1 and for the marker 2, which waits for 3: R 0, 7, 0, 5.
    // Document 01's order is 1, 3, 0, 2 and would put 0 at 7, when 1 is finished;
    // so would placing it once one of its predecessors is placed.
    let draft = Draft::new(0, &[0], &[&[0], &[7], &[0], &[5]], &[(1, 0, 0), (2, 0, 0), (3, 2, 0)]);
    assert_eq!(ranks_of(&draft), [0, 7, 0, 5]);
    assert_eq!(order_of(&draft), [1, 3, 2, 0]);
    assert_eq!(starts(&draft), [12, 0, 12, 7]);
}

#[test]
fn marker_inside_a_window() {
    // Task 1 takes no time on processor 1, where its data is at 5.
    let task_1 = |minutes: &[u16], windows: &[(u8, u32, u32)]| {
        let draft = Draft::new(0, &[0, 0], &[&[2, 20], minutes], &[(0, 1, 3)]);
        planned(&draft.with_windows(windows)).1[1]
    };
    for windows in [&[(1, 5, 9)][..], &[(1, 4, 9)], &[(1, 4, 5), (1, 5, 9)], &[(1, 2, 20_000)]] {
        assert_eq!(task_1(&[20, 0], windows), (1, 5, 5, 0));
    }
    // With a minute it waits for the end of the window.
    assert_eq!(task_1(&[20, 1], &[(1, 4, 9)]), (1, 9, 10, 0));
    // At 0, where all are down, and a task behind it that is not.
    let draft = Draft::new(0, &[0, 0], &[&[0, 0], &[3, 4]], &[(0, 1, 7)]);
    let draft = draft.with_windows(&[(0, 0, 10), (1, 0, 5)]);
    assert_eq!(planned(&draft), ((11, 0, 0), vec![(0, 0, 0, 0), (1, 7, 11, 0)]));
}

#[test]
fn marker_inside_a_row() {
    // Task 1 runs on processor 1 from 5 to 9, and task 2 has its data there at 7.
    let rows = vec![(0, 0, 2, 0), (1, 5, 9, 0), (1, 7, 7, 0)];
    assert_eq!(planned(&with_a_gap(3, &[&[20, 0]], &[(0, 2, 5)])), ((9, 0, 0), rows));
    let rows = vec![(0, 0, 2, 0), (1, 5, 9, 0), (1, 9, 10, 0)];
    assert_eq!(planned(&with_a_gap(3, &[&[20, 1]], &[(0, 2, 5)])), ((10, 0, 0), rows));
    // Between two rows, at the end of one and the begin of the other.
    let draft = Draft::new(0, &[0], &[&[4], &[3], &[0]], &[(0, 2, 1)]);
    assert_eq!(order_of(&draft), [0, 1, 2]);
    assert_eq!(planned(&draft), ((7, 0, 0), vec![(0, 0, 4, 0), (0, 4, 7, 0), (0, 4, 4, 0)]));
}

#[test]
fn two_markers_at_one_minute() {
    let edges = [(0, 1, 0), (0, 2, 0)];
    let draft = Draft::new(0, &[0], &[&[5], &[0], &[0], &[1]], &edges);
    let rows = vec![(0, 0, 5, 0), (0, 5, 5, 0), (0, 5, 5, 0), (0, 5, 6, 0)];
    assert_eq!(planned(&draft), ((6, 0, 0), rows));
    // One behind the other, and at 0.
    let draft = Draft::new(0, &[0], &[&[0], &[0], &[1]], &[(0, 1, 9), (1, 2, 9)]);
    assert_eq!(planned(&draft), ((1, 0, 0), vec![(0, 0, 0, 0), (0, 0, 0, 0), (0, 0, 1, 0)]));
}

#[test]
fn row_across_a_marker() {
    // R 65, 40, 28: the marker 1 is at 5 on processor 1 when task 2 is placed, which
    // runs there from 0 to 8. If a marker took a minute, or parted the gap, it would
    // start at 6 or 5.
    let minutes: [&[u16]; 3] = [&[5, 20], &[40, 0], &[20, 8]];
    let draft = Draft::new(0, &[0, 0], &minutes, &[(0, 1, 0)]);
    assert_eq!(order_of(&draft), [0, 1, 2]);
    assert_eq!(planned(&draft), ((8, 0, 0), vec![(0, 0, 5, 0), (1, 5, 5, 0), (1, 0, 8, 0)]));
    // In a gap that is as long as the task.
    let draft = draft.with_windows(&[(1, 8, 20_000)]);
    assert_eq!(planned(&draft), ((8, 0, 0), vec![(0, 0, 5, 0), (1, 5, 5, 0), (1, 0, 8, 0)]));
}

#[test]
fn marker_that_makes_the_length() {
    // Tasks 0 and 1 are finished at 8 on processor 0 and at 10 on processor 1. The
    // marker has its data at 10 + 5 on processor 0 and at 8 + 5 on processor 1.
    let minutes: [&[u16]; 3] = [&[8, 90], &[90, 10], &[0, 0]];
    let draft = Draft::new(0, &[0, 0], &minutes, &[(0, 2, 5), (1, 2, 5)]);
    let plan = ((13, 0, 0), vec![(0, 0, 8, 0), (1, 0, 10, 0), (1, 13, 13, 0)]);
    assert_eq!(planned(&draft), plan);
    assert_eq!(planned(&Draft { deadline: Some(13), ..draft.clone() }), plan);
    assert_eq!(refusal(&Draft { deadline: Some(12), ..draft }), (11, 13));
}

#[test]
fn marker_with_a_minimum() {
    // A marker for 7 behind a task for 12.
    let draft = |budget, minimum| {
        let draft = Draft::new(budget, &[3], &[&[4], &[0]], &[(0, 1, 0)]);
        draft.with_minimums(&[minimum])
    };
    let rows = |cost| vec![(0, 0, 4, 12), (0, 4, 4, cost)];
    assert_eq!(planned(&draft(12, None)), ((4, 12, 0), rows(0)));
    assert_eq!(planned(&draft(19, Some(7))), ((4, 19, 0), rows(7)));
    assert_eq!(refusal(&draft(18, Some(7))), (9, 19));
    // Each of them is billed, at a price of 0 too.
    let three = Draft::new(15, &[0], &[&[0], &[0], &[0]], &[]).with_minimums(&[Some(5)]);
    assert_eq!(planned(&three), ((0, 15, 0), vec![(0, 0, 0, 5); 3]));
    assert_eq!(refusal(&Draft { budget: 14, ..three }), (9, 15));
}

#[test]
fn minimum_moves_a_marker() {
    // The marker has its data at 4 on processor 0, for 7, and at 6 on processor 1, for
    // nothing. With 19 to spend it stays beside the task: B 7, F 2, RB 7, RCB 0, scores
    // 98 and 0. With 18 it cannot.
    let draft = |budget| {
        let draft = Draft::new(budget, &[3, 9], &[&[4, 90], &[0, 0]], &[(0, 1, 2)]);
        draft.with_minimums(&[Some(7), None])
    };
    assert_eq!(planned(&draft(19)), ((4, 19, 0), vec![(0, 0, 4, 12), (0, 4, 4, 7)]));
    assert_eq!(planned(&draft(18)), ((6, 12, 6), vec![(0, 0, 4, 12), (1, 6, 6, 0)]));
}

#[test]
fn no_minutes_on_one_processor_alone() {
    // On processor 0 task 1 takes no time and would start at 2, in the window; it
    // waits for its minutes on processor 1. Both count in its rank.
    let minutes: [&[u16]; 2] = [&[2, 20], &[0, 6]];
    let draft = Draft::new(100, &[1, 1], &minutes, &[(0, 1, 3)]).with_windows(&[(0, 2, 9)]);
    assert_eq!(ranks_of(&draft), [22 + 2 * 3 + 6, 6]);
    assert_eq!(planned(&draft), ((2, 2, 98), vec![(0, 0, 2, 2), (0, 2, 2, 0)]));
    // The other way round it has its data at 5 and is finished then.
    let minutes: [&[u16]; 2] = [&[2, 20], &[6, 0]];
    let draft = Draft::new(100, &[1, 1], &minutes, &[(0, 1, 3)]).with_windows(&[(0, 2, 9)]);
    assert_eq!(planned(&draft), ((5, 2, 98), vec![(0, 0, 2, 2), (1, 5, 5, 0)]));
    // A task with a minute somewhere is above what waits for it, whatever the numbers.
    let draft = Draft::new(0, &[0, 0], &[&[0, 0], &[0, 1]], &[(1, 0, 0)]);
    assert_eq!((ranks_of(&draft), order_of(&draft)), (vec![0, 1], vec![1, 0]));
}

#[test]
fn markers_stay_markers_when_multiplied() {
    let minutes: [&[u16]; 4] = [&[0, 0], &[10, 4], &[8, 0], &[0, 0]];
    let edges = [(1, 2, 2), (2, 0, 0), (3, 1, 0)];
    let draft = Draft::new(24, &[1, 3], &minutes, &edges).with_minimums(&[None, Some(5)]);
    // Tasks 0 and 3 take no time, and cost nothing on processor 0; task 2 takes none on
    // processor 1, for its minimum.
    let rows = vec![(0, 4, 4, 0), (1, 0, 4, 12), (1, 4, 4, 5), (0, 0, 0, 0)];
    assert_eq!(planned(&draft), ((4, 17, 7), rows));
    let rows = vec![(0, 12, 12, 0), (1, 0, 12, 72), (1, 12, 12, 30), (0, 0, 0, 0)];
    assert_eq!(planned(&draft.times(3, 2)), ((12, 102, 42), rows));
}

#[test]
fn the_most_minutes() {
    // 2,000 pass, and beside them a marker; 2,001 do not.
    assert_eq!(starts(&on_one(&[2_000, 0, 1_999], &[])), [0, 0, 2_000]);
    assert_eq!(refusal(&on_one(&[2_000, 2_001, 0], &[])), (4, 7 + 3 + 10 + 5 + 10));
}

// ---- Choice ----

#[test]
fn tie_of_best_goes_to_the_lower_cost() {
    // Both finish at 5, costs 10 and 5. With best 0 both might be taken, both
    // would score 0, and 0 would win.
    let draft = Draft::new(100, &[2, 1], &[&[5, 5]], &[]);
    assert_eq!(planned(&draft), ((5, 5, 95), vec![(1, 0, 5, 5)]));
}

#[test]
fn dearer_than_best_may_not_be_taken() {
    // Processor 0 would cost more than the faster processor 1.
    let draft = Draft::new(100, &[2, 1], &[&[6, 5]], &[]);
    assert_eq!(planned(&draft), ((5, 5, 95), vec![(1, 0, 5, 5)]));
}

#[test]
fn tie_of_score_goes_to_the_earlier_finish() {
    // Task 0: costs 15, 30, 20, finishes 15, 10, 20, B 15, F 10, RB 80, RCB 40.
    // Scores 6,000 + 6,000 and 12,000 and 4,000; 1 finishes before 0.
    let minutes: [&[u16]; 2] = [&[15, 10, 20], &[40, 14, 40]];
    let draft = Draft::new(80, &[1, 3, 1], &minutes, &[(0, 1, 0)]);
    assert_eq!(planned(&draft), ((24, 72, 8), vec![(1, 0, 10, 30), (1, 10, 24, 42)]));
}

#[test]
fn tie_of_score_and_finish_goes_to_the_lower_number() {
    let draft = Draft::new(100, &[1, 1, 1], &[&[9, 5, 5]], &[]);
    assert_eq!(planned(&draft), ((5, 5, 95), vec![(1, 0, 5, 5)]));
}

#[test]
fn b_is_over_all_processors() {
    // Task 0: costs 14, 30, 2,000, finishes 14, 10, 20, F 10, RB 80, RCB 40.
    // B 1,986 gives 959,680 and 1,588,800; over those that may be taken B would
    // be 16, giving 14,080 and 12,800.
    let minutes: [&[u16]; 2] = [&[14, 10, 20], &[40, 14, 40]];
    let draft = Draft::new(80, &[1, 3, 100], &minutes, &[(0, 1, 0)]);
    assert_eq!(planned(&draft), ((24, 72, 8), vec![(1, 0, 10, 30), (1, 10, 24, 42)]));
}

#[test]
fn f_is_over_all_processors() {
    // Task 0: costs 14, 30, 31, finishes 14, 10, 31, B 17, RB 80, RCB 40.
    // F 21 gives 36,560 and 28,560; over those that may be taken F would be 4,
    // giving 25,680 on processor 0.
    let minutes: [&[u16]; 2] = [&[14, 10, 31], &[40, 14, 40]];
    let draft = Draft::new(80, &[1, 3, 1], &minutes, &[(0, 1, 0)]);
    assert_eq!(planned(&draft), ((28, 56, 24), vec![(0, 0, 14, 14), (1, 14, 28, 42)]));
}
