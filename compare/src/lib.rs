//! An independent program for the rules, written from documents 01 and 02
//! alone and used to compare answers with. It keeps everything in plain tables:
//! [`read`] decodes a request, [`schedule`] plans it, [`text`] prints it; [`Method`]
//! names the two other plans that can be asked for alone; [`why_not`] says why a task
//! does not start sooner.

pub mod build;
mod plan;
mod print;
pub mod random;
mod request;
pub mod samples;
pub mod shapes;
mod why;

pub use plan::{budget, order, ranks, schedule, schedule_by, Method};
pub use print::{range_text, text, text_by, why_text};
pub use request::{read, Edge, Refusal, Window, Workflow, MOST_BYTES};
pub use why::{why_not, Why};

/// One plan row; row i speaks of task i.
#[derive(Clone, Copy, Debug, Default, PartialEq, Eq)]
pub struct Row {
    pub processor: u64,
    pub start: u64,
    pub finish: u64,
    pub cost: u64,
}

/// "Either a plan summary (n, length, cost, budget left) or a refusal (number, place)."
#[derive(Clone, Copy, Debug, PartialEq, Eq)]
pub enum Answer {
    Planned { n: u64, length: u64, cost: u64, left: u64 },
    Refused { number: u64, place: u64 },
}

/// What the cheapest plan and the HEFT plan cost.
#[derive(Clone, Copy, Debug, PartialEq, Eq)]
pub struct Costs {
    pub cheapest: u64,
    pub heft: u64,
}

/// The numbers of the table of refusals.
pub const REFUSALS: [u64; 10] = [1, 2, 3, 4, 5, 6, 7, 8, 9, 11];

impl From<Refusal> for Answer {
    fn from(Refusal { number, place }: Refusal) -> Answer {
        Answer::Refused { number, place }
    }
}

/// Reads and plans a request. A plan writes rows 0 to n-1 and keeps the rest;
/// a refusal changes no row.
pub fn plan(request: &[u8], rows: &mut [Row]) -> Answer {
    plan_by(Method::Hbcs, request, rows)
}

/// Reads and plans it by this method.
pub fn plan_by(method: Method, request: &[u8], rows: &mut [Row]) -> Answer {
    match read(request) {
        Ok(workflow) => schedule_by(method, &workflow, rows),
        Err(refusal) => refusal.into(),
    }
}

/// "The cheapest plan's cost, the HEFT plan's cost; or the refusal, 1 to 8, that both
/// get." As many rows are lent as are needed, so that it is never 7.
pub fn range(request: &[u8]) -> Result<Costs, Refusal> {
    let cost = |method| match plan_by(method, request, &mut [Row::default(); 64]) {
        Answer::Planned { cost, .. } => Ok(cost),
        Answer::Refused { number, place } => Err(Refusal { number, place }),
    };
    Ok(Costs { cheapest: cost(Method::Cheapest)?, heft: cost(Method::Heft)? })
}

/// The label of a task without its spaces, as a part of the request itself;
/// the empty part at the start "for a request refused in reading (1 to 6), or
/// a task not below n".
pub fn label(request: &[u8], task: usize) -> &[u8] {
    let workflow = read(request).ok();
    match workflow.as_ref().and_then(|w| w.labels.get(task)) {
        Some(place) => &request[place.clone()],
        None => &request[..0],
    }
}
