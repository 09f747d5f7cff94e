//! The requests that fuzzing found worth keeping, in `compare/corpus`, answered again.
use against::{columns_before, Driver, METHODS};
use compare::shapes::starts;
use compare::{Method, Row};
use std::fs;

#[test]
fn the_corpus_is_answered_alike() {
    let folder = concat!(env!("CARGO_MANIFEST_DIR"), "/../corpus");
    let files = fs::read_dir(folder).expect("the corpus is there");
    let requests: Vec<Vec<u8>> =
        files.map(|file| fs::read(file.expect("an entry").path()).expect("a request")).collect();
    assert!(requests.len() >= 30, "{} requests", requests.len());
    let mut driver = Driver::start();
    for (request, method) in requests.iter().flat_map(|request| METHODS.map(|by| (request, by))) {
        let (answer, columns) = driver.plan(method, &[(request, [70; 4])]).remove(0);
        let mut rows = [Row::default(); 70];
        let theirs = compare::plan_by(method, request, &mut rows);
        assert_eq!(answer, theirs.into(), "{method:?}: {request:?}");
        let before = columns_before([70; 4]);
        for (i, row) in rows.iter().enumerate() {
            let fields = [row.processor, row.start, row.finish, row.cost];
            for ((column, before), field) in columns.iter().zip(&before).zip(fields) {
                let expected = if (i as u64) < answer.tasks { field } else { before[i] };
                assert_eq!(column[i], expected, "{method:?}: row {i} of {request:?}");
            }
        }
        let text = compare::text_by(method, request);
        let printed = driver.print(method, &[(request, text.len())]).remove(0);
        assert_eq!(printed, (text.len(), text.clone()));
        let by_wrapper = match method {
            Method::Hbcs => zabgurin::text(request),
            Method::Cheapest => zabgurin::text_cheapest(request),
            Method::Heft => zabgurin::text_heft(request),
        };
        assert_eq!(by_wrapper, text);
    }
    for request in &requests {
        let range = driver.range(&[request]).remove(0);
        assert_eq!(range, compare::range(request).into(), "{request:?}");
        let starts = starts(request);
        let some: Vec<_> = starts.iter().step_by(1 + starts.len() / 100).copied().collect();
        let reasons = driver.why(&[(request, some.clone())]).remove(0);
        for ((task, start), reason) in some.into_iter().zip(reasons) {
            let theirs = compare::why_not(request, task, start).into();
            assert_eq!(reason, theirs, "task {task} at {start} of {request:?}");
        }
    }
}
