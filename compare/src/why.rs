//! Why a task does not start sooner, of the plan that the page answers with.

use std::cmp::Reverse;

use crate::{read, schedule, Answer, Edge, Refusal, Row, Workflow};

/// What one is told of a start that a task does not have.
#[derive(Clone, Copy, Debug, PartialEq, Eq)]
pub enum Why {
    /// "Data of which edge arrives later than the start, and its minute. The edge is
    /// named by the task that it leads from."
    Data { from: u64, minute: u64 },
    /// "Which window of that processor it would overlap, begin and end."
    Window { begin: u64, end: u64 },
    /// "Which row of that processor it would overlap, task, start and finish."
    Row { task: u64, start: u64, finish: u64 },
    /// "The start is not below the task's own": the task's own.
    Own { start: u64 },
    /// "A task that the request does not have is told as that, with how many it has."
    NoTask { tasks: u64 },
}

/// Why this task does not start at this minute. "A request that has no plan has its
/// refusal told instead"; 64 rows are lent, so that it is never 7.
pub fn why_not(request: &[u8], task: usize, start: u64) -> Result<Why, Refusal> {
    let workflow = read(request)?;
    let mut rows = [Row::default(); 64];
    match schedule(&workflow, &mut rows) {
        Answer::Planned { .. } => Ok(why(&workflow, &rows[..workflow.tasks], task, start)),
        Answer::Refused { number, place } => Err(Refusal { number, place }),
    }
}

/// The same of these rows, which are a plan of the workflow.
fn why(workflow: &Workflow, rows: &[Row], task: usize, start: u64) -> Why {
    let Some(own) = rows.get(task) else {
        return Why::NoTask { tasks: rows.len() as u64 };
    };
    if start >= own.start {
        return Why::Own { start: own.start };
    }
    let minutes = (start, start + (own.finish - own.start));
    late_data(workflow, rows, task, start)
        .or_else(|| window_in_the_way(workflow, own.processor, minutes))
        .or_else(|| row_in_the_way(rows, task, minutes))
        .expect("nothing can be pulled forward (document 02, A8)")
}

/// "Of the predecessors whose data arrives after the start the one that arrives last,
/// ties to the lower number."
fn late_data(workflow: &Workflow, rows: &[Row], task: usize, start: u64) -> Option<Why> {
    let arrival = |edge: &Edge| {
        let before = rows[edge.from];
        let away = before.processor != rows[task].processor;
        before.finish + if away { edge.transfer.into() } else { 0 }
    };
    let entering = workflow.edges.iter().filter(|edge| edge.to == task);
    let arrivals = entering.map(|edge| (arrival(edge), Reverse(edge.from as u64)));
    let (minute, Reverse(from)) = arrivals.filter(|&(minute, _)| minute > start).max()?;
    Some(Why::Data { from, minute })
}

/// "The earliest that it would overlap." The windows of a processor stand by rising
/// begin.
fn window_in_the_way(workflow: &Workflow, processor: u64, minutes: (u64, u64)) -> Option<Why> {
    let there = workflow.windows.iter().filter(|window| window.processor as u64 == processor);
    there
        .map(|window| (u64::from(window.begin), u64::from(window.end)))
        .find(|&window| overlap(minutes, window))
        .map(|(begin, end)| Why::Window { begin, end })
}

/// "The lowest task that it would overlap."
fn row_in_the_way(rows: &[Row], task: usize, minutes: (u64, u64)) -> Option<Why> {
    let others = rows.iter().enumerate().filter(|&(other, _)| other != task);
    others
        .filter(|(_, row)| row.processor == rows[task].processor)
        .find(|(_, row)| overlap(minutes, (row.start, row.finish)))
        .map(|(other, row)| Why::Row { task: other as u64, start: row.start, finish: row.finish })
}

/// "Two intervals overlap when they have a minute in common."
fn overlap((begin, end): (u64, u64), (other_begin, other_end): (u64, u64)) -> bool {
    begin.max(other_begin) < end.min(other_end)
}
