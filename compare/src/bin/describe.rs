//! Shows a request in words: its records in order, each with its offset, up to the one at which reading stops. It is plain Rust and no part of what is
//! proved; where it marks a record, the mark is the independent program's refusal.

use std::fmt::Write as _;
use std::io::{self, Read, Write as _};
use std::{env, fs, process};

use compare::{budget, range, read, Costs, Refusal, Workflow};

fn main() {
    let words: Vec<String> = env::args().skip(1).collect();
    let request = match &words[..] {
        [] => {
            let mut request = Vec::new();
            io::stdin().lock().read_to_end(&mut request).map(|_| request)
        }
        [file] => fs::read(file),
        _ => {
            eprintln!("describe [FILE]: one request, from the file or from standard input");
            process::exit(2);
        }
    };
    let request = request.unwrap_or_else(|error| {
        eprintln!("{}: {error}", words.first().map_or("standard input", |file| file));
        process::exit(1);
    });
    // A closed output ends it.
    let _ = io::stdout().lock().write_all(described(&request).as_bytes());
}

/// The whole description.
fn described(request: &[u8]) -> String {
    let good = read(request);
    let refusal = good.as_ref().err();
    let mut out = String::new();
    let mut at = 0;
    while at < request.len() {
        let end = request.len().min(at + size(request[at]));
        let stops = refusal.is_some_and(|refusal| refusal.place as usize == at);
        let mark = if stops { ">>" } else { "  " };
        let text = record(&request[at..end]);
        let more = match (&good, request[at]) {
            (Ok(workflow), b'K') => of_the_range(request, workflow),
            _ if is_marker(request, at) => ", a marker".to_string(),
            _ => String::new(),
        };
        writeln!(out, "{mark}{at:6}  {text}{more}").expect("a string takes all");
        at = end;
        if stops {
            break;
        }
    }
    let length = request.len();
    match refusal {
        None => writeln!(out, "A good request of {length} bytes."),
        Some(Refusal { number, place }) => {
            let rest = length - at;
            let why = reason(*number);
            writeln!(out, "Reading stops at byte {place} with refusal {number}: {why}.").and_then(
                |()| match rest {
                    0 => Ok(()),
                    _ => writeln!(out, "The {rest} bytes from {at} on were not read."),
                },
            )
        }
    }
    .expect("a string takes all");
    out
}

/// What a share is of, and the budget that it sets.
fn of_the_range(request: &[u8], workflow: &Workflow) -> String {
    match (range(request), budget(workflow)) {
        (Ok(Costs { cheapest, heft }), Some(budget)) => {
            format!(" of the range {cheapest} to {heft}: budget {budget}")
        }
        _ => " of no range, for the edges have a cycle".to_string(),
    }
}

/// Bytes of a record of this kind, with the kind byte; 1 for a byte that is no kind.
fn size(kind: u8) -> usize {
    match kind {
        b'H' => 7,
        b'D' | b'Q' | b'W' | b'E' => 5,
        b'K' | b'P' => 3,
        b'M' | b'T' => 10,
        _ => 1,
    }
}

/// Whether a task stands here that takes no time anywhere: behind its `T` as many `W`s of 0 minutes as there are processors.
fn is_marker(request: &[u8], at: usize) -> bool {
    let (Some(&processors), Some(behind)) = (request.get(2), request.get(at + size(b'T')..)) else {
        return false;
    };
    let of_task = behind.chunks_exact(size(b'W')).take(processors.into());
    let none = of_task.filter(|minutes| matches!(minutes, [b'W', _, _, 0, 0])).count();
    request[at] == b'T' && none == usize::from(processors)
}

/// A record in words, whatever its numbers are. One that is cut short says so.
fn record(bytes: &[u8]) -> String {
    let two = |at: usize| u16::from_le_bytes([bytes[at], bytes[at + 1]]);
    let four =
        |at: usize| u32::from_le_bytes([bytes[at], bytes[at + 1], bytes[at + 2], bytes[at + 3]]);
    if bytes.len() < size(bytes[0]) {
        let (kind, have, want) = (char::from(bytes[0]), bytes.len(), size(bytes[0]));
        return format!("{kind}  cut short: {have} of {want} bytes");
    }
    match bytes[0] {
        b'H' => format!("H  {} tasks, {} processors, budget {}", bytes[1], bytes[2], four(3)),
        b'D' => format!("D  deadline {}", four(1)),
        b'K' => format!("K  a share of {} thousandths", two(1)),
        b'P' => format!("P  processor {}, price {}", bytes[1], bytes[2]),
        b'Q' => {
            format!("Q  processor {}, price {}, minimum {}", bytes[1], bytes[2], two(3))
        }
        b'M' => {
            format!("M  processor {} is down from {} to {}", bytes[1], four(2), four(6))
        }
        b'T' => format!("T  task {}, label \"{}\"", bytes[1], bytes[2..].escape_ascii()),
        b'W' => format!("W  task {} on processor {}: {} minutes", bytes[1], bytes[2], two(3)),
        b'E' => format!("E  from {} to {}, transfer {}", bytes[1], bytes[2], two(3)),
        b'Z' => "Z  end".to_string(),
        other => format!("?  byte {other} begins no record"),
    }
}

/// What the numbers of reading mean.
fn reason(number: u64) -> &'static str {
    match number {
        1 => "the input ends before this record is whole",
        2 => "another record is due here",
        3 => "another number is due here, or the edge or window is out of order",
        4 => "a number is out of its range, or this is the 513th edge, a fifth window or a share beside a budget that is not 0",
        5 => "the label is not 1 to 8 bytes of the list and then spaces",
        6 => "there are bytes after the end",
        _ => unreachable!("reading refuses with 1 to 6"),
    }
}

#[cfg(test)]
mod tests {
    use super::described;
    use compare::build::{sample, Draft};

    #[test]
    fn a_good_request() {
        let text = described(&sample(28).bytes());
        assert!(text.starts_with("       0  H  3 tasks, 2 processors, budget 28\n"), "{text}");
        assert!(text.contains("      13  T  task 0, label \"prep    \"\n"), "{text}");
        assert!(text.contains("      78  E  from 0 to 2, transfer 3\n"), "{text}");
        assert!(text.ends_with("      83  Z  end\nA good request of 84 bytes.\n"), "{text}");
    }

    #[test]
    fn a_minimum() {
        let draft = sample(28).with_minimums(&[None, Some(10_000)]);
        let text = described(&draft.bytes());
        assert!(text.contains("       7  P  processor 0, price 1\n"), "{text}");
        assert!(text.contains("      10  Q  processor 1, price 3, minimum 10000\n"), "{text}");
        assert!(text.contains("      15  T  task 0, label \"prep    \"\n"), "{text}");
        assert!(text.ends_with("      85  Z  end\nA good request of 86 bytes.\n"), "{text}");

        let text = described(&sample(28).with_minimums(&[None, Some(10_001)]).bytes());
        assert!(text.contains(">>    10  Q  processor 1, price 3, minimum 10001\n"), "{text}");
        assert!(text.contains("Reading stops at byte 10 with refusal 4"), "{text}");
        assert!(text.ends_with("The 71 bytes from 15 on were not read.\n"), "{text}");

        let text = described(&draft.bytes()[..14]);
        assert!(text.contains(">>    10  Q  cut short: 4 of 5 bytes\n"), "{text}");
    }

    #[test]
    fn a_share() {
        let draft = sample(0).with_share(667);
        let text = described(&draft.bytes());
        assert!(text.starts_with("       0  H  3 tasks, 2 processors, budget 0\n"), "{text}");
        let line = "       7  K  a share of 667 thousandths of the range 24 to 30: budget 28\n";
        assert!(text.contains(line), "{text}");
        assert!(text.contains("      10  P  processor 0, price 1\n"), "{text}");
        assert!(text.ends_with("      86  Z  end\nA good request of 87 bytes.\n"), "{text}");

        let text = described(&Draft { deadline: Some(14), ..draft.clone() }.bytes());
        assert!(text.contains("       7  D  deadline 14\n      12  K  a share of 667 "), "{text}");

        let mut cyclic = draft.clone();
        cyclic.edges.push((1, 0, 0));
        let line = "K  a share of 667 thousandths of no range, for the edges have a cycle\n";
        assert!(described(&cyclic.bytes()).contains(line));

        // Out of its range, beside a budget, cut, and in a request that is refused behind it.
        let text = described(&draft.clone().with_share(1_001).bytes());
        assert!(text.contains(">>     7  K  a share of 1001 thousandths\n"), "{text}");
        assert!(text.contains("Reading stops at byte 7 with refusal 4"), "{text}");
        assert!(text.ends_with("The 77 bytes from 10 on were not read.\n"), "{text}");
        let text = described(&Draft { budget: 28, ..draft.clone() }.bytes());
        assert!(text.contains(">>     7  K  a share of 667 thousandths\n"), "{text}");
        assert!(text.contains("a share beside a budget that is not 0.\n"), "{text}");
        let text = described(&draft.bytes()[..9]);
        assert!(text.contains(">>     7  K  cut short: 2 of 3 bytes\n"), "{text}");
        let text = described(&draft.bytes()[..12]);
        assert!(
            text.contains("       7  K  a share of 667 thousandths\n>>    10  P  cut"),
            "{text}"
        );
    }

    #[test]
    fn windows() {
        let text = described(&sample(28).with_windows(&[(0, 7, 9), (1, 0, 20_000)]).bytes());
        assert!(text.contains("      10  P  processor 1, price 3\n"), "{text}");
        assert!(text.contains("      13  M  processor 0 is down from 7 to 9\n"), "{text}");
        assert!(text.contains("      23  M  processor 1 is down from 0 to 20000\n"), "{text}");
        assert!(text.contains("      33  T  task 0, label \"prep    \"\n"), "{text}");
        assert!(text.ends_with("     103  Z  end\nA good request of 104 bytes.\n"), "{text}");

        let text = described(&sample(28).with_windows(&[(0, 7, 9), (0, 8, 12)]).bytes());
        assert!(text.contains(">>    23  M  processor 0 is down from 8 to 12\n"), "{text}");
        assert!(text.contains("Reading stops at byte 23 with refusal 3"), "{text}");
        assert!(text.ends_with("The 71 bytes from 33 on were not read.\n"), "{text}");

        let request = sample(28).with_windows(&[(1, 7, 70_000)]).bytes();
        let text = described(&request);
        assert!(text.contains(">>    13  M  processor 1 is down from 7 to 70000\n"), "{text}");
        assert!(text.contains("Reading stops at byte 13 with refusal 4"), "{text}");
        let text = described(&request[..22]);
        assert!(text.contains(">>    13  M  cut short: 9 of 10 bytes\n"), "{text}");
    }

    #[test]
    fn markers() {
        let minutes: [&[u16]; 3] = [&[0, 0], &[0, 4], &[6, 0]];
        let request = Draft::new(28, &[1, 3], &minutes, &[]).bytes();
        let text = described(&request);
        assert!(text.contains("      13  T  task 0, label \"t0      \", a marker\n"), "{text}");
        assert!(text.contains("      23  W  task 0 on processor 0: 0 minutes\n"), "{text}");
        assert!(text.contains("      33  T  task 1, label \"t1      \"\n"), "{text}");
        assert!(text.contains("      43  W  task 1 on processor 0: 0 minutes\n"), "{text}");
        assert!(text.contains("      53  T  task 2, label \"t2      \"\n"), "{text}");
        assert_eq!(text.matches("marker").count(), 1, "{text}");
        // Cut in its last `W`, it might take some time there.
        let text = described(&request[..32]);
        assert!(text.contains("      13  T  task 0, label \"t0      \"\n"), "{text}");
        assert!(text.contains(">>    28  W  cut short: 4 of 5 bytes\n"), "{text}");
        assert!(described(b"T").contains(">>     0  T  cut short: 1 of 10 bytes\n"));

        let request = Draft::new(28, &[1], &[&[2_001]], &[]).bytes();
        let text = described(&request);
        assert!(text.contains(">>    20  W  task 0 on processor 0: 2001 minutes\n"), "{text}");
    }

    #[test]
    fn the_refused_record_is_marked() {
        let mut request = sample(28).bytes();
        request[15] = b';';
        let text = described(&request);
        assert!(text.contains(">>    13  T  task 0, label \";rep    \"\n"), "{text}");
        assert!(text.contains("Reading stops at byte 13 with refusal 5"), "{text}");
        assert!(text.ends_with("The 61 bytes from 23 on were not read.\n"), "{text}");
    }

    #[test]
    fn input_that_ends() {
        let request = &sample(28).bytes()[..9];
        let text = described(request);
        assert!(text.contains(">>     7  P  cut short: 2 of 3 bytes\n"), "{text}");
        assert!(described(b"").contains("Reading stops at byte 0 with refusal 1"));
        assert!(described(&[0]).contains(">>     0  ?  byte 0 begins no record\n"));
    }
}
