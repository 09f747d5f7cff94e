//! Prints the plan for the request on standard input; with `--cheapest` or `--heft` the
//! plan by that method alone, with `--range` what these two cost, and with `--why`, a task
//! and a start why the task does not start then.

use std::io::{self, Read, Write};
use std::{env, process};

use compare::{range_text, text, text_by, why_text, Method};

/// A good request has at most [`compare::MOST_BYTES`], so one that is longer
/// than this is refused on account of its first bytes.
const INPUT_LIMIT: u64 = 16_384;

fn main() -> io::Result<()> {
    let words: Vec<String> = env::args().skip(1).collect();
    let words: Vec<&str> = words.iter().map(String::as_str).collect();
    let printed: Box<dyn Fn(&[u8]) -> Vec<u8>> = match words[..] {
        [] => Box::new(text),
        ["--cheapest"] => Box::new(|request| text_by(Method::Cheapest, request)),
        ["--heft"] => Box::new(|request| text_by(Method::Heft, request)),
        ["--range"] => Box::new(range_text),
        ["--why", task, start] => match (task.parse(), start.parse()) {
            (Ok(task), Ok(start)) => Box::new(move |request| why_text(request, task, start)),
            _ => wrong_call(),
        },
        _ => wrong_call(),
    };
    let mut request = Vec::new();
    io::stdin().lock().take(INPUT_LIMIT).read_to_end(&mut request)?;
    let mut out = io::stdout().lock();
    out.write_all(&printed(&request))?;
    out.flush()
}

fn wrong_call() -> ! {
    let words = "[--cheapest | --heft | --range | --why TASK START]";
    eprintln!("compare {words}: one request, from standard input");
    process::exit(2);
}
