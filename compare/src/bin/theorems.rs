//! Prints random small requests, good and damaged, with what this program answers, as theorems about the definitions
//! in crates/rules: a file of specs/ that the checker accepts only if the definitions compute the same texts. A
//! misreading of the rules would have to happen twice to get through.

use std::iter::repeat_with;

use compare::build::{sample, Draft};
use compare::random::{damage, draft, Damage, Limits, Random};
use compare::shapes::{bills_a_minimum, fills_a_gap, methods_differ, turned_by_minimums};
use compare::shapes::{marker_in_a_row, marker_in_a_window, ordered_anew, turned_by_order};
use compare::shapes::{turned_by_share, turned_by_windows, waits_for_a_window};
use compare::{plan, range, range_text, text, text_by, Answer, Method, Row, REFUSALS};

/// Small enough to be computed by the checker in a moment.
const TINY: Limits = Limits {
    tasks: 4,
    processors: 3,
    edges: 6,
    minutes: 12,
    transfer: 6,
    price: 5,
    minimum: 30,
    window: 24,
};

/// As many requests as they come, and as many more of each sort that is rare among them or matters most: with a task in a
/// gap, with a task that is billed a minimum, with a plan that is another without minimums, with a task that starts where
/// a window ends, with a plan that is another without windows, with a marker in the midst of a window and in the midst of a
/// row, with a plan whose tasks are placed in another order than document 01's, and which is another by that, with a `K`
/// and a plan that is neither the cheapest nor the HEFT plan, for each refusal, and for each that reading can give at a
/// `Q`, at an `M` and at a `K`.
const ANY: usize = 64;
const GAPS: usize = 30;
const BILLED: usize = 15;
const TURNED: usize = 15;
const WAITING: usize = 15;
const TURNED_BY_WINDOWS: usize = 15;
const IN_A_WINDOW: usize = 5;
const IN_A_ROW: usize = 5;
const ORDERED_ANEW: usize = 5;
const TURNED_BY_ORDER: usize = 11;
const TURNED_BY_SHARE: usize = 15;
const REFUSED: usize = 2;
const REFUSED_AT_Q: usize = 4;
const REFUSED_AT_M: usize = 5;
const REFUSED_AT_K: usize = 4;

/// Asked of the two other methods and of the range, each: as they come, with two plans that differ, and refused by HBCS
/// after reading, for money or for the deadline.
const ANY_ALONE: usize = 4;
const DIFFERENT: usize = 7;
const REFUSED_ELSE: usize = 2;

/// What is asked of a request.
#[derive(Clone, Copy)]
enum Asked {
    Plan,
    Cheapest,
    Heft,
    Range,
}

impl Asked {
    /// By its name in the definitions.
    fn name(self) -> &'static str {
        match self {
            Asked::Plan => "text",
            Asked::Cheapest => "text_asked by_cheapest",
            Asked::Heft => "text_asked by_HEFT",
            Asked::Range => "range_text",
        }
    }

    fn answer(self, request: &[u8]) -> Vec<u8> {
        match self {
            Asked::Plan => text(request),
            Asked::Cheapest => text_by(Method::Cheapest, request),
            Asked::Heft => text_by(Method::Heft, request),
            Asked::Range => range_text(request),
        }
    }
}

fn main() {
    println!("use Rattle.std.specs.Prelude.{{◌≡◌, refl, [], ◌∷◌}}");
    println!("use Rattle.rules.specs.Method.{{by_cheapest, by_HEFT}}");
    println!("use Rattle.rules.specs.Text.{{bytes, text, text_asked}}");
    println!("use Rattle.rules.specs.Range.{{range_text}}");
    println!("use Rattle.rules.specs.Cases.{{given}}");
    for (case, (asked, request)) in cases().iter().enumerate() {
        let answer = String::from_utf8(asked.answer(request)).expect("a printed plan is ASCII");
        let list: String = request.iter().map(|byte| format!("{byte} ∷ ")).collect();
        println!();
        println!("case_{case} : {} ({list}[]) ≡ bytes {answer:?}", asked.name());
        println!("unfolding given");
        println!("case_{case} = refl");
    }
}

fn cases() -> Vec<(Asked, Vec<u8>)> {
    let mut random = Random(0x5EED_0F0D_0C01_0002);
    // One in three is damaged.
    let mut drawn = repeat_with(|| {
        let mut request = draft(&mut random, &TINY).bytes();
        match random.within(1, 6) {
            1 => damage(&mut random, &mut request),
            2 => random.one_of(&Damage::ALL).to(&mut random, &mut request),
            _ => {}
        }
        request
    });
    let mut requests: Vec<Vec<u8>> = drawn.by_ref().take(ANY).collect();
    // The ends of the ranges, which numbers so small do not come to.
    let least = |minimum| sample(28).with_minimums(&[None, Some(minimum)]).bytes();
    let down = |begin, end| sample(28).with_windows(&[(1, begin, end)]).bytes();
    requests.extend([least(10_000), least(10_001)]);
    requests.extend([down(4, 20_000), down(4, 20_001), down(19_999, 20_000)]);
    let taking = |minutes: u16| Draft::new(28, &[1, 3], &[&[0, minutes]], &[]).bytes();
    requests.extend([taking(2_000), taking(2_001)]);
    // What falls to a share by its floor, the ends of its range, and one beside a budget.
    requests.extend([0, 666, 1_000, 1_001].map(|share| sample(0).with_share(share).bytes()));
    requests.push(Draft { budget: 28, ..sample(0).with_share(667) }.bytes());
    // Four windows of a processor, and five.
    let windows = [(0, 0, 1), (0, 1, 3), (0, 5, 8), (0, 9, 10), (0, 10, 11)];
    requests.extend([4, 5].map(|count| sample(28).with_windows(&windows[..count]).bytes()));
    let mut more = |count: usize, such: &dyn Fn(&[u8]) -> bool| {
        requests.extend(drawn.by_ref().filter(|request| such(request)).take(count));
    };
    more(GAPS, &fills_a_gap);
    more(BILLED, &bills_a_minimum);
    more(TURNED, &turned_by_minimums);
    more(WAITING, &waits_for_a_window);
    more(TURNED_BY_WINDOWS, &turned_by_windows);
    more(IN_A_WINDOW, &marker_in_a_window);
    more(IN_A_ROW, &marker_in_a_row);
    more(ORDERED_ANEW, &ordered_anew);
    more(TURNED_BY_ORDER, &turned_by_order);
    more(TURNED_BY_SHARE, &turned_by_share);
    // Refusal 7 cannot be had from the printed text.
    for number in REFUSALS.into_iter().filter(|&number| number != 7) {
        more(REFUSED, &|request| refusal(request).is_some_and(|(given, _)| given == number));
    }
    let mut more_at = |kind: u8, count: usize, numbers: &[u64]| {
        for &number in numbers {
            more(count, &|request| {
                refusal(request).is_some_and(|(given, place)| {
                    given == number && request.get(place as usize) == Some(&kind)
                })
            });
        }
    };
    more_at(b'Q', REFUSED_AT_Q, &[1, 2, 3, 4]);
    more_at(b'M', REFUSED_AT_M, &[1, 2, 3, 4]);
    more_at(b'K', REFUSED_AT_K, &[1, 2, 4]);
    let mut cases: Vec<_> = requests.into_iter().map(|request| (Asked::Plan, request)).collect();
    for asked in [Asked::Cheapest, Asked::Heft, Asked::Range] {
        let mut more = |count: usize, such: &dyn Fn(&[u8]) -> bool| {
            let such = drawn.by_ref().filter(|request| such(request));
            cases.extend(such.take(count).map(|request| (asked, request)));
        };
        more(ANY_ALONE, &|_| true);
        more(DIFFERENT, &|request| methods_differ(request));
        for number in [9, 11] {
            more(REFUSED_ELSE, &|request| {
                range(request).is_ok() && refusal(request).is_some_and(|(given, _)| given == number)
            });
        }
    }
    cases
}

/// Number and place of the refusal, if it is one.
fn refusal(request: &[u8]) -> Option<(u64, u64)> {
    match plan(request, &mut [Row::default(); 64]) {
        Answer::Refused { number, place } => Some((number, place)),
        Answer::Planned { .. } => None,
    }
}
