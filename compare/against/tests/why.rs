//! Why a task does not start sooner: the exported function against the independent program, on the samples, on requests of
//! every shape and on damaged ones, with starts around all that may stand against them.
use against::{Driver, Reason, Starts};
use compare::build::sample;
use compare::random::{draft, Damage, Limits, Random, SMALL};
use compare::shapes::{of_every_shape, starts, SHAPES};
use compare::{samples, why_not, REFUSALS};
use std::collections::BTreeMap;

/// How often each reason was met, 1 to 5, and each refusal.
#[derive(Debug, Default)]
struct Met {
    reasons: BTreeMap<u64, usize>,
    refusals: BTreeMap<u64, usize>,
}

/// Holds what the proved code tells of these tasks and starts against the independent program.
fn agree(requests: impl IntoIterator<Item = (Vec<u8>, Vec<(usize, u64)>)>) -> Met {
    let (mut driver, mut met) = (Driver::start(), Met::default());
    let mut requests = requests.into_iter().peekable();
    while requests.peek().is_some() {
        let batch: Vec<_> = requests.by_ref().take(64).collect();
        let asked: Vec<Starts> =
            batch.iter().map(|(request, starts)| (&request[..], starts.clone())).collect();
        for ((request, starts), reasons) in asked.iter().zip(driver.why(&asked)) {
            for (&(task, start), reason) in starts.iter().zip(reasons) {
                let theirs: Reason = why_not(request, task, start).into();
                assert_eq!(reason, theirs, "task {task} at {start}: request {request:?}");
                let (met, number) = match reason.number {
                    0 => (&mut met.reasons, reason.reason),
                    number => (&mut met.refusals, number),
                };
                *met.entry(number).or_default() += 1;
            }
        }
    }
    println!("{met:?}");
    assert!(met.reasons.keys().all(|reason| (1..=5).contains(reason)), "{met:?}");
    let refusals: Vec<u64> = met.refusals.keys().copied().collect();
    assert!(refusals.iter().all(|number| *number != 7 && REFUSALS.contains(number)), "{met:?}");
    met
}

impl Met {
    /// Each reason was met so often.
    fn each_reason(&self, count: usize) {
        assert!(self.reasons.keys().eq(&[1, 2, 3, 4, 5]), "{self:?}");
        assert!(self.reasons.values().all(|&met| met >= count), "{self:?}");
    }
}

/// A request, with so many of the starts to ask of at the most.
fn some(request: Vec<u8>, most: usize) -> (Vec<u8>, Vec<(usize, u64)>) {
    let starts = starts(&request);
    let some = starts.iter().step_by(starts.len().div_ceil(most)).copied().collect();
    (request, some)
}

/// Every start of the first minutes too.
#[test]
fn the_samples() {
    let requests = samples::all().into_iter().map(|(_, request)| {
        let mut asked = starts(&request);
        asked.extend((0..11).flat_map(|task| (0..130).map(move |start| (task, start))));
        (request, asked)
    });
    agree(requests).each_reason(10);
}

/// The sample with a window at every place of either processor, from one minute to twelve, and every start.
#[test]
fn the_sample_with_a_window_anywhere() {
    let windows = (0..2).flat_map(|j| {
        (0..24).flat_map(move |begin| (1..=12).map(move |minutes| (j, begin, begin + minutes)))
    });
    let asked: Vec<_> = (0..4).flat_map(|task| (0..40).map(move |start| (task, start))).collect();
    let requests = windows.flat_map(|window| {
        [23, 24, 28, 100].map(|budget| sample(budget).with_windows(&[window]).bytes())
    });
    let met = agree(requests.map(|request| (request, asked.clone())));
    met.each_reason(2_000);
    assert!(met.refusals.keys().eq(&[9]), "{met:?}");
}

/// Small ones with all starts: many tasks on few processors, where rows are placed before others that were placed earlier,
/// and few different numbers, so that data arrives at the same minute.
#[test]
fn small_requests() {
    const CROWDED: Limits = Limits {
        tasks: 12,
        processors: 3,
        edges: 14,
        minutes: 5,
        transfer: 9,
        window: 30,
        ..SMALL
    };
    let mut random = Random(0x0A8A_5EED_0000_0003);
    let requests = (0..3_000).map(|round| {
        let limits = if round % 4 == 0 { &SMALL } else { &CROWDED };
        let request = draft(&mut random, limits).bytes();
        let asked = starts(&request);
        (request, asked)
    });
    agree(requests).each_reason(10_000);
}

#[test]
fn requests_of_every_shape() {
    let requests = of_every_shape(0x0A8A_5EED_0000_0004, SHAPES);
    let met = agree(requests.map(|draft| some(draft.bytes(), 24)));
    met.each_reason(1_000);
    assert!(met.refusals.keys().eq(&[8, 9, 11]), "{met:?}");
}

#[test]
fn damaged_requests() {
    let mut random = Random(0x0A8A_5EED_0000_0005);
    let damage = Damage::ALL.iter().cycle();
    let requests =
        of_every_shape(0x0A8A_5EED_0000_0006, SHAPES).zip(damage).map(|(draft, kind)| {
            let mut request = draft.bytes();
            kind.to(&mut random, &mut request);
            some(request, 4)
        });
    let met = agree(requests);
    assert!(met.refusals.keys().eq(&[1, 2, 3, 4, 5, 6, 8, 9, 11]), "{met:?}");
}
