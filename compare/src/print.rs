//! The printed plan, the printed range, and what is printed of a start.

use crate::{range, read, schedule_by, why_not};
use crate::{Answer, Costs, Method, Refusal, Row, Why};

/// What the program prints for a request, with 64 rows lent.
pub fn text(request: &[u8]) -> Vec<u8> {
    text_by(Method::Hbcs, request)
}

/// "The program for the range writes one line: `range `, the cheapest plan's cost,
/// the HEFT plan's cost; or `no `, number, place."
pub fn range_text(request: &[u8]) -> Vec<u8> {
    let mut out = Vec::new();
    match range(request) {
        Ok(Costs { cheapest, heft }) => line(&mut out, b"range", &[cheapest, heft]),
        Err(Refusal { number, place }) => line(&mut out, b"no", &[number, place]),
    }
    out
}

/// Why this task does not start at this minute: "a first line for scripts and a
/// sentence for people below it".
pub fn why_text(request: &[u8], task: usize, start: u64) -> Vec<u8> {
    let (head, numbers, sentence) = match why_not(request, task, start) {
        Ok(Why::Data { from, minute }) => {
            let sentence = format!("Its data from task {from} arrives at minute {minute}.");
            ("data", vec![from, minute], sentence)
        }
        Ok(Why::Window { begin, end }) => {
            let sentence = format!("Its processor is down from minute {begin} up to minute {end}.");
            ("window", vec![begin, end], sentence)
        }
        Ok(Why::Row { task, start, finish }) => {
            let minutes = format!("from minute {start} up to minute {finish}");
            ("row", vec![task, start, finish], format!("Its processor runs task {task} {minutes}."))
        }
        Ok(Why::Own { start }) => {
            let sentence =
                format!("In the plan it starts at minute {start}, so this is not sooner.");
            ("own", vec![start], sentence)
        }
        Ok(Why::NoTask { tasks }) => {
            let sentence =
                format!("There is no such task; the request has {tasks}, numbered from 0.");
            ("none", vec![tasks], sentence)
        }
        Err(Refusal { number, place }) => {
            let sentence = "The request has no plan, so no task has a start.";
            ("no", vec![number, place], sentence.to_string())
        }
    };
    let mut out = Vec::new();
    line(&mut out, head.as_bytes(), &numbers);
    line(&mut out, sentence.as_bytes(), &[]);
    out
}

/// What the program for this method prints.
pub fn text_by(method: Method, request: &[u8]) -> Vec<u8> {
    let mut out = Vec::new();
    let mut rows = [Row::default(); 64];
    let workflow = match read(request) {
        Ok(workflow) => workflow,
        Err(refusal) => {
            line(&mut out, b"no", &[refusal.number, refusal.place]);
            return out;
        }
    };
    match schedule_by(method, &workflow, &mut rows) {
        Answer::Refused { number, place } => line(&mut out, b"no", &[number, place]),
        Answer::Planned { n, length, cost, left } => {
            line(&mut out, b"plan", &[n, length, cost, left]);
            for (label, row) in workflow.labels.iter().zip(&rows) {
                let numbers = [row.processor, row.start, row.finish, row.cost];
                line(&mut out, &request[label.clone()], &numbers);
            }
        }
    }
    out
}

/// "Fields are parted by one space, numbers are decimal, lines end with a line feed."
fn line(out: &mut Vec<u8>, head: &[u8], numbers: &[u64]) {
    out.extend_from_slice(head);
    for number in numbers {
        out.push(b' ');
        out.extend_from_slice(number.to_string().as_bytes());
    }
    out.push(b'\n');
}
