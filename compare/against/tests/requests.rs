//! The exported reader and label lookup against the independent program: random good requests up to the full size,
//! damaged ones of every kind, every cut, every byte and every number of two bytes, too many edges, windows in any
//! order, noise. Many have minutes of 0.
use against::{Driver, Reading};
use compare::build::{d, e, k, m, p, q, sample, t, w, z, Draft};
use compare::random::{has_a_zero, share, sized, windows_of, Damage, Random};
use compare::{Edge, Refusal, Window, Workflow, MOST_BYTES};

// The sizes of the rules' records, with the kind byte.
const P: usize = 3;
const Q: usize = 5;
const M: usize = 10;
const T: usize = 10;
const W: usize = 5;
const E: usize = 5;

/// Task numbers that no request has, one for each way to lose the upper bytes of a number.
const NO_TASKS: [usize; 8] = [64, 65, 255, 256, 257, 1 << 16, 1 << 32, usize::MAX];

/// Holds the proved reader and label lookup against the independent program on each request. Gives the numbers of
/// the refusals, 0 for a good request.
fn agree(requests: impl IntoIterator<Item = Vec<u8>>) -> Vec<usize> {
    let (mut driver, mut numbers) = (Driver::start(), Vec::new());
    let mut requests = requests.into_iter().peekable();
    while requests.peek().is_some() {
        let batch: Vec<_> = requests.by_ref().take(64).collect();
        let theirs: Vec<_> = batch.iter().map(|request| compare::read(request)).collect();
        let questions: Vec<_> = batch
            .iter()
            .zip(&theirs)
            .map(|(request, theirs)| {
                let tasks = theirs.as_ref().map_or(4, |workflow| workflow.tasks + 3);
                (&request[..], (0..tasks).chain(NO_TASKS).collect())
            })
            .collect();
        let answers = driver.read(&questions);
        for (((request, tasks), theirs), (ours, labels)) in
            questions.iter().zip(theirs).zip(&answers)
        {
            numbers.push(ours.number as usize);
            match theirs {
                Err(Refusal { number, place }) => {
                    let refused = Reading { number, place: place as usize, ..Reading::default() };
                    assert_eq!(*ours, refused, "request {request:?}");
                }
                Ok(theirs) => {
                    assert_eq!((ours.number, ours.place), (0, 0), "request {request:?}");
                    let sizes = (theirs.tasks, theirs.processors, theirs.edges.len());
                    let read = (ours.tasks, ours.processors, ours.edges);
                    assert_eq!(read, sizes, "request {request:?}");
                    assert_eq!(workflow(request, ours, labels), theirs, "request {request:?}");
                }
            }
            for (&task, &ours) in tasks.iter().zip(labels) {
                let theirs = compare::label(request, task);
                let same = ours.as_ptr_range() == theirs.as_ptr_range();
                assert!(
                    same,
                    "task {task}: {ours:?}, not {theirs:?}, or elsewhere; request {request:?}"
                );
            }
        }
    }
    numbers
}

/// How often each number was met.
fn met(numbers: &[usize]) -> [usize; 7] {
    let mut met = [0; 7];
    for &number in numbers {
        met[number] += 1;
    }
    met
}

/// The tables of a good request, each number decoded where the reading says that its part stands.
fn workflow(request: &[u8], reading: &Reading, labels: &[&[u8]]) -> Workflow {
    let begins = |at: usize, record: &[u8]| {
        let found = request.get(at..at + record.len());
        assert_eq!(found, Some(record), "at {at} of request {request:?}");
    };
    let two = |at: usize| u32::from(u16::from_le_bytes([request[at], request[at + 1]]));
    let four = |at: usize| two(at) | two(at + 2) << 16;
    let &Reading {
        tasks: n, processors: m, prices_at, windows_at, tasks_at, edges_at, edges, ..
    } = reading;
    // A `Q` is longer than a `P`, so the record of a processor is found from the one before it.
    let (mut at, mut prices, mut minimums) = (prices_at, Vec::new(), Vec::new());
    for j in 0..m as u8 {
        let has_minimum = request[at] == b'Q';
        begins(at, &[if has_minimum { b'Q' } else { b'P' }, j]);
        prices.push(request[at + 2].into());
        minimums.push(if has_minimum { two(at + 3) } else { 0 });
        at += if has_minimum { Q } else { P };
    }
    // Behind them stand the windows, and then the tasks.
    assert_eq!(at, windows_at, "request {request:?}");
    let mut windows = Vec::new();
    for _ in 0..reading.windows {
        begins(at, b"M");
        windows.push(Window {
            processor: request[at + 1].into(),
            begin: four(at + 2),
            end: four(at + 6),
        });
        at += M;
    }
    assert_eq!(at, tasks_at, "request {request:?}");
    let task = |i: usize| tasks_at + i * (T + m * W);
    let minutes = |i: usize, j: usize| {
        let at = task(i) + T + j * W;
        begins(at, &[b'W', i as u8, j as u8]);
        two(at + 3)
    };
    let place = |i: usize| {
        begins(task(i), &[b'T', i as u8]);
        let part = labels[i];
        let begin = part.as_ptr() as usize - request.as_ptr() as usize;
        assert_eq!(begin, task(i) + 2, "label {i} of request {request:?}");
        begin..begin + part.len()
    };
    let edge = |k: usize| {
        let at = edges_at + k * E;
        begins(at, b"E");
        Edge { from: request[at + 1].into(), to: request[at + 2].into(), transfer: two(at + 3) }
    };
    begins(edges_at + edges * E, b"Z");
    assert_eq!(edges_at + edges * E + 1, request.len(), "request {request:?}");
    Workflow {
        tasks: n,
        processors: m,
        budget: reading.budget.try_into().unwrap(),
        deadline: (reading.deadline != 0).then(|| reading.deadline.try_into().unwrap()),
        share: match (reading.share_given, reading.share) {
            (0, 0) => None,
            (1, share) => Some(share.try_into().unwrap()),
            given => panic!("{given:?} for request {request:?}"),
        },
        prices,
        minimums,
        windows,
        minutes: (0..n)
            .flat_map(|i| (0..m).map(move |j| (i, j)))
            .map(|(i, j)| minutes(i, j))
            .collect(),
        labels: (0..n).map(place).collect(),
        edges: (0..edges).map(edge).collect(),
    }
}

/// The sample with a task that takes no time, and another that takes none on one processor.
fn with_zeros() -> Draft {
    let mut draft = sample(28);
    draft.tasks[1].1 = vec![0, 0];
    draft.tasks[2].1 = vec![6, 0];
    draft
}

/// Four windows for each of 16 processors.
fn four_for_each(random: &mut Random) -> Vec<(u8, u32, u32)> {
    (0..16).flat_map(|j| windows_of(random, j, 4, (0, 20_000))).collect()
}

/// Small ones mostly, some of them the smallest; some of any size, and some of the full one, half of these with 16 `Q`, 64
/// windows and a `K`.
fn good(random: &mut Random) -> Draft {
    match random.within(1, 40) {
        1 | 2 => {
            let mut draft = sized(random, 64, 16, 512);
            if random.one_in(2) {
                draft.minimums = vec![Some(random.often_an_end(0, 10_000) as u16); 16];
                draft.windows = four_for_each(random);
                draft = draft.with_share(share(random));
            }
            draft
        }
        6 => {
            let draft = sized(random, 1, 1, 0).with_minimums(&[None]).with_windows(&[]);
            Draft { deadline: None, share: None, ..draft }
        }
        3..=5 => {
            let (n, m) = (random.often_an_end(1, 64), random.often_an_end(1, 16));
            let edges = random.often_an_end(0, 512);
            sized(random, n, m, edges)
        }
        _ => {
            let (n, m) = (random.within(1, 6), random.within(1, 4));
            let edges = random.within(0, 10);
            sized(random, n, m, edges)
        }
    }
}

#[test]
fn good_requests() {
    let mut random = Random(0x5eed_4ead_0000_0001);
    let (mut full, mut with_deadline, mut without) = (0, 0, 0);
    // How often a request has the lowest and the highest value of each range.
    let mut ends = [("", [0; 2]); 15];
    let mut of_length = [0; 9];
    // How often a request has `P` alone, `Q` alone and both.
    let mut kinds = [0; 3];
    // How often it has windows, and two that touch.
    let (mut with_windows, mut touching) = (0, 0);
    // How often it has minutes of 0, and a `K`.
    let (mut with_zeros, mut with_share) = (0, 0);
    let requests = (0..24_000).map(|_| {
        let draft = good(&mut random);
        let request = draft.bytes();
        let sizes = (draft.tasks.len(), draft.prices.len(), draft.edges.len());
        full += usize::from(sizes == (64, 16, 512));
        match draft.deadline {
            Some(_) => with_deadline += 1,
            None => without += 1,
        }
        let shares: Vec<u32> = draft.share.iter().map(|&share| share.into()).collect();
        with_share += shares.len();
        let prices: Vec<u32> = draft.prices.iter().map(|&price| price.into()).collect();
        let minimums: Vec<u32> = draft.minimums.iter().flatten().map(|&m| m.into()).collect();
        kinds[match minimums.len() {
            0 => 0,
            some if some == prices.len() => 1,
            _ => 2,
        }] += 1;
        let minutes: Vec<u32> =
            draft.tasks.iter().flat_map(|task| &task.1).map(|&time| time.into()).collect();
        let transfers: Vec<u32> = draft.edges.iter().map(|edge| edge.2.into()).collect();
        let begins: Vec<u32> = draft.windows.iter().map(|window| window.1).collect();
        let ends_of_windows: Vec<u32> = draft.windows.iter().map(|window| window.2).collect();
        let lengths: Vec<u32> = draft.windows.iter().map(|&(_, from, to)| to - from).collect();
        let of = |j: usize| draft.windows.iter().filter(move |window| usize::from(window.0) == j);
        let counts: Vec<u32> = (0..sizes.1).map(|j| of(j).count() as u32).collect();
        with_windows += usize::from(!draft.windows.is_empty());
        let touch = |pair: &[(u8, u32, u32)]| (pair[0].0, pair[0].2) == (pair[1].0, pair[1].1);
        touching += usize::from(draft.windows.windows(2).any(touch));
        with_zeros += usize::from(has_a_zero(&draft));
        let ranges: [(&str, u32, u32, &[u32]); 15] = [
            ("n", 1, 64, &[sizes.0 as u32]),
            ("m", 1, 16, &[sizes.1 as u32]),
            ("edges", 0, 512, &[sizes.2 as u32]),
            ("budget", 0, 20_000_000, &[draft.budget]),
            ("deadline", 1, 200_000, draft.deadline.as_slice()),
            ("share", 0, 1_000, &shares),
            ("price", 0, 100, &prices),
            ("minimum", 0, 10_000, &minimums),
            ("begin", 0, 19_999, &begins),
            ("end", 1, 20_000, &ends_of_windows),
            ("minutes of a window", 1, 20_000, &lengths),
            ("windows of a processor", 0, 4, &counts),
            ("minutes", 0, 2_000, &minutes),
            ("transfer", 0, 1_000, &transfers),
            ("bytes", 26, MOST_BYTES as u32, &[request.len() as u32]),
        ];
        for (end, (name, low, high, values)) in ends.iter_mut().zip(ranges) {
            end.0 = name;
            end.1[0] += usize::from(values.contains(&low));
            end.1[1] += usize::from(values.contains(&high));
        }
        for task in &draft.tasks {
            of_length[task.0.len()] += 1;
        }
        request
    });
    assert!(agree(requests).iter().all(|&number| number == 0));
    println!("{full} full, {with_deadline} with a deadline, {without} without; ends {ends:?}; kinds {kinds:?}; labels {of_length:?}");
    println!("{with_windows} with windows, {touching} with windows that touch, {with_zeros} with minutes of 0, {with_share} with a share");
    assert!(full >= 500, "{full} full");
    assert!(
        with_deadline >= 10_000 && without >= 10_000,
        "{with_deadline} with, {without} without"
    );
    assert!(ends.iter().all(|end| end.1[0] >= 200 && end.1[1] >= 200), "{ends:?}");
    assert!(kinds.iter().all(|&seen| seen >= 4_000), "{kinds:?}");
    assert!(with_windows >= 12_000 && touching >= 2_000, "{with_windows}, {touching}");
    assert!((6_000..18_000).contains(&with_zeros), "{with_zeros}");
    assert!((6_000..12_000).contains(&with_share), "{with_share}");
    assert!(of_length[1..].iter().all(|&seen| seen >= 10_000), "{of_length:?}");
}

#[test]
fn damaged_requests() {
    let mut random = Random(0x5eed_4ead_0000_0002);
    let requests = Damage::ALL.iter().cycle().take(60_000).map(|kind| {
        let mut request = good(&mut random).bytes();
        kind.to(&mut random, &mut request);
        request
    });
    // For each kind of damage, how often it was read as a good request (at 0) and how often each refusal was met.
    let mut met = [[0; 7]; Damage::ALL.len()];
    for (round, number) in agree(requests).into_iter().enumerate() {
        met[round % Damage::ALL.len()][number] += 1;
    }
    let mut of_number = [0; 7];
    for (kind, of_kind) in Damage::ALL.iter().zip(&met) {
        println!("{kind:?}: {of_kind:?}");
        for (sum, seen) in of_number.iter_mut().zip(of_kind) {
            *sum += seen;
        }
        assert!(of_kind[1..].iter().sum::<usize>() >= 1_000, "{kind:?}: {of_kind:?}");
    }
    let refused: usize = of_number[1..].iter().sum();
    println!("{refused} refused: {of_number:?}");
    assert!(refused >= 20_000, "{refused} refused");
    assert!(of_number.iter().all(|&seen| seen >= 500), "{of_number:?}");
}

#[test]
fn every_cut() {
    let mut random = Random(0x5eed_4ead_0000_0003);
    let full = sized(&mut random, 64, 16, 512);
    let mut drafts = vec![
        sample(28),
        sample(28).with_minimums(&[None, Some(10)]),
        sample(28).with_windows(&[(0, 7, 9), (1, 4, 30)]),
        with_zeros(),
        sample(0).with_share(667),
        sized(&mut random, 1, 1, 0),
        full.clone().with_minimums(&[None; 16]).with_windows(&[]),
        full.clone().with_minimums(&[Some(10_000); 16]).with_windows(&four_for_each(&mut random)),
        full.with_share(1_000),
    ];
    drafts.extend((0..200).map(|_| sized(&mut random, 3, 2, 4)));
    for mut draft in drafts {
        for deadline in [None, Some(14)] {
            draft.deadline = deadline;
            let request = draft.bytes();
            let mut numbers = agree((0..=request.len()).map(|length| request[..length].to_vec()));
            assert_eq!(numbers.pop(), Some(0), "request {request:?}");
            let not_cut = numbers.iter().position(|&number| number != 1);
            assert_eq!(not_cut, None, "a cut of {request:?}");
        }
    }
}

/// The sample without minimums, windows, zeros and a share and with them, each without a deadline and with one.
#[test]
fn every_byte_of_the_sample() {
    let drafts = [
        sample(28),
        sample(28).with_minimums(&[None, Some(10)]),
        sample(28).with_minimums(&[Some(9), Some(0)]),
        sample(28).with_windows(&[(0, 7, 9), (1, 4, 30)]),
        sample(28).with_windows(&[(0, 0, 1), (0, 1, 258), (0, 259, 1_000), (0, 5_000, 20_000)]),
        with_zeros(),
        sample(0).with_share(667),
    ];
    let drafts = drafts.iter().flat_map(|draft| [None, Some(14)].map(|to| (draft, to)));
    let requests = drafts.flat_map(|(draft, deadline)| {
        let draft = Draft { deadline, ..draft.clone() };
        let request = draft.bytes();
        (0..request.len() * 256).map(move |k| {
            let mut changed = request.clone();
            changed[k / 256] = k as u8;
            changed
        })
    });
    let met = met(&agree(requests));
    println!("{met:?}");
    let bytes = 84 + 89 + 86 + 91 + 88 + 93 + 104 + 109 + 124 + 129 + 84 + 89 + 87 + 92;
    assert_eq!(met.iter().sum::<usize>(), bytes * 256);
    // 1 needs `Z` turned into `E`, and 6 one of the two `E` turned into `Z`, in each of the fourteen requests.
    assert_eq!((met[1], met[6]), (14, 28));
    assert!([0, 2, 3, 4, 5].iter().all(|&number| met[number] >= 1_000), "{met:?}");
}

/// All values of minutes, transfer, minimum and share; of budget, deadline and a window's begin and end those at the ends of the
/// range and of each byte.
#[test]
fn every_number_of_more_bytes() {
    let mut all = Vec::new();
    let mut within = |name, low, high, values: &[u32], change: fn(&mut Draft, u32)| {
        let request = |&value: &u32| {
            let mut draft = sample(28);
            change(&mut draft, value);
            draft.bytes()
        };
        let numbers = agree(values.iter().map(request));
        for (value, &number) in values.iter().zip(&numbers) {
            let wanted = if (low..=high).contains(value) { 0 } else { 4 };
            assert_eq!(number, wanted, "{name} {value}");
        }
        all.extend(numbers);
    };
    let values: Vec<u32> = (0..=u16::MAX.into()).collect();
    within("minutes", 0, 2_000, &values, |draft, value| draft.tasks[1].1[0] = value as u16);
    within("minutes", 0, 2_000, &values, |draft, value| draft.tasks[2].1[1] = value as u16);
    within("transfer", 0, 1_000, &values, |draft, value| draft.edges[0].2 = value as u16);
    within("minimum", 0, 10_000, &values, |draft, value| draft.minimums[0] = Some(value as u16));
    within("minimum", 0, 10_000, &values, |draft, value| draft.minimums[1] = Some(value as u16));
    within("share", 0, 1_000, &values, |draft, value| {
        *draft = draft.clone().with_share(value as u16);
    });
    let mut random = Random(0x5eed_4ead_0000_0004);
    let near = |end: u32| (0..=600).map(move |more| end.wrapping_sub(300).wrapping_add(more));
    let ends = [0, 1 << 8, 1 << 16, 200_000, 1 << 24, 20_000_000, 1 << 31];
    let random = (0..20_000).map(|_| (random.number() >> random.within(32, 63)) as u32);
    let values: Vec<u32> = ends.into_iter().flat_map(near).chain(random).collect();
    within("budget", 0, 20_000_000, &values, |draft, value| draft.budget = value);
    within("budget beside a share", 0, 0, &values, |draft, value| {
        (draft.budget, draft.share) = (value, Some(667));
    });
    within("deadline", 1, 200_000, &values, |draft, value| draft.deadline = Some(value));
    let near_the_end: Vec<u32> = near(20_000).chain(values).collect();
    let values = &near_the_end[..];
    within("begin", 0, 19_999, values, |draft, value| draft.windows = vec![(1, value, 20_000)]);
    within("begin", 0, 300, values, |draft, value| draft.windows = vec![(0, value, 301)]);
    within("end", 1, 20_000, values, |draft, value| draft.windows = vec![(1, 0, value)]);
    within("end", 258, 20_000, values, |draft, value| draft.windows = vec![(0, 257, value)]);
    let met = met(&all);
    println!("{met:?}");
    assert!(met[0] >= 10_000 && met[4] >= 100_000, "{met:?}");
}

/// The 513th edge is refused before its order and its fields are looked at, but only when it is whole.
#[test]
fn edges_past_the_limit() {
    let mut random = Random(0x5eed_4ead_0000_0005);
    let mut cases = Vec::new();
    let mut expect = |number: usize, request: &[u8]| cases.push((number, request.to_vec()));
    for _ in 0..100 {
        let n = random.often_an_end(24, 64);
        let mut draft = sized(&mut random, n, 1, 512);
        assert_eq!(draft.edges.len(), 512);
        expect(0, &draft.bytes());
        let last = draft.edges[511];
        for more in [(255, 254, 0), (0, 0, 0), last, (last.0, last.1, u16::MAX)] {
            draft.edges.push(more);
            let request = draft.bytes();
            expect(4, &request);
            for cut in 1..=E {
                expect(1, &request[..request.len() - 1 - cut]);
            }
            draft.edges.pop();
        }
        let more = 512 + random.within(1, 30);
        expect(4, &sized(&mut random, n, 1, more).bytes());
    }
    let numbers = agree(cases.iter().map(|(_, request)| request.clone()));
    for ((wanted, request), number) in cases.iter().zip(numbers) {
        assert_eq!(number, *wanted, "request {request:?}");
    }
}

/// Lists of windows for two processors, most of them in order: a few small numbers, and now and then one past its range.
#[test]
fn windows_in_any_order() {
    let mut random = Random(0x5eed_4ead_0000_0007);
    let requests = (0..60_000).map(|_| {
        let mut windows: Vec<(u8, u32, u32)> = Vec::new();
        for _ in 0..random.within(1, 12) {
            let j = random.one_of(&[0, 0, 0, 0, 0, 0, 1, 1, 1, 1, 1, 1, 2, 255]);
            let begin = random.within(0, 40) as u32 * random.one_of(&[1, 1, 1, 64]);
            let end = match random.within(1, 16) {
                1 => begin,
                2 => begin.wrapping_sub(1),
                3 => random.one_of(&[20_000, 20_001, u32::MAX]),
                _ => begin + random.within(1, 6) as u32,
            };
            windows.push((j, begin, end));
        }
        if !random.one_in(6) {
            windows.sort();
        }
        sample(28).with_windows(&windows).bytes()
    });
    let met = met(&agree(requests));
    println!("{met:?}");
    assert!([0, 3, 4].iter().all(|&number| met[number] >= 5_000), "{met:?}");
}

/// A window's order is looked at before its ranges, and these before it is counted, but only when it is whole.
#[test]
fn windows_past_the_limit() {
    let mut random = Random(0x5eed_4ead_0000_0008);
    let mut cases = Vec::new();
    let mut expect = |number: usize, request: &[u8]| cases.push((number, request.to_vec()));
    for round in 0..200 {
        let processors = random.often_an_end(1, 16);
        let j = random.often_an_end(0, processors - 1) as usize;
        let mut draft = sized(&mut random, 2, processors, 1);
        draft.windows = windows_of(&mut random, j, 4, (0, 19_000 + round));
        expect(0, &draft.bytes());
        let (last, before) = (draft.windows[3].2, draft.windows[3].1);
        let (j, m) = (j as u8, processors as u8);
        let more = [
            (4, (j, last, last + 1)),
            (4, (j, last, 20_001)),
            (4, (j, last, last)),
            (4, (m, 0, 1)),
            (3, (j, last - 1, last + 1)),
            (3, (j, last - 1, 20_001)),
            (3, (j, before, before)),
        ];
        for (number, window) in more {
            draft.windows.push(window);
            let request = draft.bytes();
            expect(number, &request);
            let records = draft.records();
            let fifth = records.iter().rposition(|record| record[0] == b'M').expect("a window");
            let end = records[..=fifth].concat().len();
            for cut in 1..=M {
                expect(1, &request[..end - cut]);
            }
            draft.windows.pop();
        }
    }
    let numbers = agree(cases.iter().map(|(_, request)| request.clone()));
    for ((wanted, request), number) in cases.iter().zip(numbers) {
        assert_eq!(number, *wanted, "request {request:?}");
    }
}

/// Up to 80 bytes: a header that passes, or more of the front of a good request, and behind it bytes of any sort or
/// whole records with small numbers.
#[test]
fn noise_behind_a_header() {
    let mut random = Random(0x5eed_4ead_0000_0006);
    let requests = (0..300_000).map(|_| {
        let (n, processors) = (random.within(1, 2), random.within(1, 2));
        let records = sized(&mut random, n, processors, 2).records();
        let kept = random.often_an_end(1, records.len() as u64) as usize;
        let mut request = records[..kept].concat();
        let (sort, length) = (random.within(1, 4), random.within(7, 80) as usize);
        while request.len() < length {
            let [a, b, c] = [(); 3].map(|()| random.within(0, 2) as u8);
            match (sort, random.within(1, 7)) {
                (1, _) => request.push(random.number() as u8),
                (2, _) => request.push(random.one_of(b"DKPQMTWEZ\0\x01\x02 a")),
                (_, 1) if random.one_in(2) => request.extend(d(c.into())),
                (_, 1) => request.extend(k(random.one_of(&[0, 1, 1_000, 1_001]))),
                (_, 2) if random.one_in(2) => request.extend(p(a, b)),
                (_, 2) => request.extend(q(a, b, random.one_of(&[0, 1, 10_000, 10_001]))),
                (_, 3) => request.extend(t(a, &b"aZ-"[..usize::from(b)])),
                (_, 4) => request.extend(w(a, b, random.one_of(&[0, 1, 2_000, 2_001]))),
                (_, 5) => request.extend(e(a, b, c.into())),
                (_, 6) => request.extend(m(a, b.into(), random.one_of(&[0, 1, 3, 20_000, 20_001]))),
                _ => request.extend(z()),
            }
        }
        request.truncate(length);
        request
    });
    let met = met(&agree(requests));
    println!("{met:?}");
    assert!(met.iter().all(|&seen| seen >= 300), "{met:?}");
}
