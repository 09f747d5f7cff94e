//! Plans for workflows on rented machines: a request of bytes is answered with a plan, a machine and a start for every task, or with one numbered refusal
//! and its place. The functions that do it are proved; this is a thin and safe way to call them. Each is defined for every slice, so nothing has to be checked first.
//! How much stack a call takes stands in include/zabgurin.h; `plan`, `cheapest` and `heft` take 2 KiB more. Only these three, and `text` and its like, use the heap, for what
//! they return.
//!
//! ```
//! let request = std::fs::read("samples/s28.request")?;
//! match zabgurin::plan(&request) {
//!     Ok(plan) => println!("the first task starts at minute {}", plan.rows[0].start),
//!     Err(refusal) => println!("refused: {}, place {}", refusal.number, refusal.place),
//! }
//! ```

/// A request has at most so many tasks.
pub const MOST_TASKS: usize = 64;

/// The text of any request has at most so many bytes.
pub const MOST_TEXT: usize = 2_145;

/// A request that passes reading has at most so many bytes; a longer one is refused with 1 to 6. What comes after the first 16,384 bytes changes no answer.
pub const MOST_REQUEST: usize = 9_056;

/// Where a task runs, from when to when, and what it costs. A task of 0 minutes there starts and is finished at one minute, which may be in the midst of another row or of a window.
#[derive(Clone, Copy, Debug, Default, PartialEq, Eq)]
pub struct Row {
    pub processor: u64,
    pub start: u64,
    pub finish: u64,
    pub cost: u64,
}

/// What a plan comes to.
#[derive(Clone, Copy, Debug, Default, PartialEq, Eq)]
pub struct Summary {
    pub tasks: u64,
    /// The minute at which the last task is finished.
    pub length: u64,
    pub cost: u64,
    /// What is left of the budget.
    pub left: u64,
}

/// Row i is task i's.
#[derive(Clone, Debug, PartialEq, Eq)]
pub struct Plan {
    pub summary: Summary,
    pub rows: Vec<Row>,
}

/// Why there is no plan: a number, 1 to 9 or 11, and its place. `docs/HELP.md` has the table.
#[derive(Clone, Copy, Debug, PartialEq, Eq)]
pub struct Refusal {
    pub number: u64,
    pub place: u64,
}

/// What the cheapest plan and the HEFT plan cost.
#[derive(Clone, Copy, Debug, PartialEq, Eq)]
pub struct Costs {
    pub cheapest: u64,
    pub heft: u64,
}

/// Why a task does not start at a minute.
#[derive(Clone, Copy, Debug, PartialEq, Eq)]
pub enum Why {
    /// Data from this task arrives on its processor later than that, at this minute. Of several the one that arrives last, of equals the lowest.
    LateData { from: u64, minute: u64 },
    /// It would overlap this window of its processor, the earliest of several.
    InWindow { begin: u64, end: u64 },
    /// It would overlap the row of this task on its processor, the lowest of several.
    BesideRow { task: u64, begin: u64, end: u64 },
    /// That is not sooner than its own start, which is this.
    OwnStart { start: u64 },
    /// The request has no such task, but so many.
    NoTask { tasks: u64 },
}

/// Plans a request.
pub fn plan(request: &[u8]) -> Result<Plan, Refusal> {
    planned(proved::zabgurin_plan, request)
}

/// Plans a request into four buffers: row i in the numbers at i. As many rows are lent as the shortest buffer has numbers. A plan writes rows 0 to n-1 and keeps
/// what stands after them; a refusal writes nothing.
pub fn plan_into(
    request: &[u8],
    processors: &mut [u64],
    starts: &mut [u64],
    finishes: &mut [u64],
    costs: &mut [u64],
) -> Result<Summary, Refusal> {
    planned_into(proved::zabgurin_plan, request, processors, starts, finishes, costs)
}

/// The cheapest plan, asked for alone: each task goes where it costs the least. No budget and no deadline is held against it; a refusal is one of 1 to 8, and 0 is left.
pub fn cheapest(request: &[u8]) -> Result<Plan, Refusal> {
    planned(proved::zabgurin_cheapest, request)
}

/// The same into four buffers, as [`plan_into`].
pub fn cheapest_into(
    request: &[u8],
    processors: &mut [u64],
    starts: &mut [u64],
    finishes: &mut [u64],
    costs: &mut [u64],
) -> Result<Summary, Refusal> {
    planned_into(proved::zabgurin_cheapest, request, processors, starts, finishes, costs)
}

/// The plain HEFT plan, asked for alone: each task goes where it is finished first. No budget and no deadline is held against it; a refusal is one of 1 to 8, and 0 is left.
pub fn heft(request: &[u8]) -> Result<Plan, Refusal> {
    planned(proved::zabgurin_heft, request)
}

/// The same into four buffers, as [`plan_into`].
pub fn heft_into(
    request: &[u8],
    processors: &mut [u64],
    starts: &mut [u64],
    finishes: &mut [u64],
    costs: &mut [u64],
) -> Result<Summary, Refusal> {
    planned_into(proved::zabgurin_heft, request, processors, starts, finishes, costs)
}

/// What the cheapest plan and the HEFT plan of a request cost, the range that a share is of; or the refusal that both get, 1 to 6 or 8.
pub fn range(request: &[u8]) -> Result<Costs, Refusal> {
    let mut costs = proved::Costs::default();
    // SAFETY: the pointer and the length are one slice's, which is only read, and only during the call; the costs are written.
    unsafe { proved::zabgurin_range(&mut costs, request.as_ptr(), request.len()) };
    let proved::Costs { number, place, cheapest, heft } = costs;
    if number == 0 {
        Ok(Costs { cheapest, heft })
    } else {
        Err(Refusal { number, place })
    }
}

/// Why a task does not start at a minute, by the plan of [`plan`]; or the refusal of a request that has none. Of data, windows and rows it is the first that stands against it,
/// and one of them does against every start that is sooner than the task's own.
pub fn why_not(request: &[u8], task: usize, start: u64) -> Result<Why, Refusal> {
    let mut told = proved::Reason::default();
    // SAFETY: the pointer and the length are one slice's, which is only read, and only during the call; what is told is written.
    unsafe { proved::zabgurin_why(&mut told, request.as_ptr(), request.len(), task, start) };
    let proved::Reason { number, place, reason, task, begin, end } = told;
    match (number, reason) {
        (0, 1) => Ok(Why::LateData { from: task, minute: begin }),
        (0, 2) => Ok(Why::InWindow { begin, end }),
        (0, 3) => Ok(Why::BesideRow { task, begin, end }),
        (0, 4) => Ok(Why::OwnStart { start: begin }),
        (0, 5) => Ok(Why::NoTask { tasks: task }),
        (0, other) => unreachable!("{other} is no reason"),
        _ => Err(Refusal { number, place }),
    }
}

/// Prints the plan, or the refusal, into a buffer: the number of bytes. Where the buffer is too small it keeps its content, and the error is the number of bytes wanted.
pub fn print(request: &[u8], text: &mut [u8]) -> Result<usize, usize> {
    printed(proved::zabgurin_print, request, text)
}

/// Prints the cheapest plan likewise.
pub fn print_cheapest(request: &[u8], text: &mut [u8]) -> Result<usize, usize> {
    printed(proved::zabgurin_print_cheapest, request, text)
}

/// Prints the HEFT plan likewise.
pub fn print_heft(request: &[u8], text: &mut [u8]) -> Result<usize, usize> {
    printed(proved::zabgurin_print_heft, request, text)
}

/// The printed plan, or the refusal.
pub fn text(request: &[u8]) -> Vec<u8> {
    texted(proved::zabgurin_print, request)
}

/// The printed cheapest plan, or the refusal.
pub fn text_cheapest(request: &[u8]) -> Vec<u8> {
    texted(proved::zabgurin_print_cheapest, request)
}

/// The printed HEFT plan, or the refusal.
pub fn text_heft(request: &[u8]) -> Vec<u8> {
    texted(proved::zabgurin_print_heft, request)
}

/// The plan by one of the proved planners.
fn planned(planner: proved::Planner, request: &[u8]) -> Result<Plan, Refusal> {
    let mut columns = [[0; MOST_TASKS]; 4];
    let [processors, starts, finishes, costs] = &mut columns;
    let summary = planned_into(planner, request, processors, starts, finishes, costs)?;
    let row = |i: usize| Row {
        processor: processors[i],
        start: starts[i],
        finish: finishes[i],
        cost: costs[i],
    };
    Ok(Plan { summary, rows: (0..summary.tasks as usize).map(row).collect() })
}

fn planned_into(
    planner: proved::Planner,
    request: &[u8],
    processors: &mut [u64],
    starts: &mut [u64],
    finishes: &mut [u64],
    costs: &mut [u64],
) -> Result<Summary, Refusal> {
    let mut answer = proved::Answer::default();
    // SAFETY: each pointer and length are one slice's; the first is only read, the other four are lent to this call alone, and the answer is written.
    unsafe {
        planner(
            &mut answer,
            request.as_ptr(),
            request.len(),
            processors.as_mut_ptr(),
            processors.len(),
            starts.as_mut_ptr(),
            starts.len(),
            finishes.as_mut_ptr(),
            finishes.len(),
            costs.as_mut_ptr(),
            costs.len(),
        )
    };
    let proved::Answer { number, place, tasks, length, cost, left } = answer;
    if number == 0 {
        Ok(Summary { tasks, length, cost, left })
    } else {
        Err(Refusal { number, place })
    }
}

/// The text by one of the proved printers.
fn printed(printer: proved::Printer, request: &[u8], text: &mut [u8]) -> Result<usize, usize> {
    // SAFETY: each pointer and length are one slice's; the first is only read, the other is lent to this call alone.
    let length = unsafe { printer(request.as_ptr(), request.len(), text.as_mut_ptr(), text.len()) };
    if length <= text.len() {
        Ok(length)
    } else {
        Err(length)
    }
}

fn texted(printer: proved::Printer, request: &[u8]) -> Vec<u8> {
    let mut text = vec![0; MOST_TEXT];
    let length = printed(printer, request, &mut text).expect("the largest text fits");
    text.truncate(length);
    text
}

/// The label of a task without its spaces, as a part of the request; the empty part at the start for a task that the request does not have, and for a request that is refused
/// in reading, with 1 to 6.
pub fn label(request: &[u8], task: usize) -> &[u8] {
    // SAFETY: the pointer and the length are one slice's, which is only read, and only during the call.
    let proved::Part { begin, length } =
        unsafe { proved::zabgurin_label(request.as_ptr(), request.len(), task) };
    &request[begin..begin + length]
}

/// What reading a request says.
#[repr(C)]
#[derive(Clone, Copy, Debug, Default, PartialEq, Eq)]
pub struct Reading {
    /// The refusal, 1 to 6; 0 for a good request.
    pub number: u64,
    /// The refusal's place; 0 for a good request.
    pub place: usize,
    pub tasks: usize,
    pub processors: usize,
    /// What the header says; 0 where a share sets the budget.
    pub budget: u64,
    /// 0 without one.
    pub deadline: u64,
    /// 1 where a share sets the budget, else 0.
    pub share_given: u64,
    /// In thousandths; 0 without one.
    pub share: u64,
    /// Where the records of the processors begin: for each, in their order, a `P` of 3 bytes or a `Q` of 5. So the record of a processor is found from the one before
    /// it, by its letter.
    pub prices_at: usize,
    /// The offset of the first window, an `M` of 10 bytes, or of the first task where there is none. Windows stand by rising processor, and those of one processor by
    /// rising begin.
    pub windows_at: usize,
    /// How many windows there are.
    pub windows: usize,
    /// Where the records of the tasks begin.
    pub tasks_at: usize,
    /// The offset of the first edge, or of the end where there is none.
    pub edges_at: usize,
    /// How many edges there are.
    pub edges: usize,
}

/// Reads a request. A refusal has number and place, and 0 in every other field.
pub fn read(request: &[u8]) -> Reading {
    let mut reading = Reading::default();
    // SAFETY: the pointer and the length are one slice's, which is only read, and only during the call; the reading is written.
    unsafe { proved::zabgurin_read(&mut reading, request.as_ptr(), request.len()) };
    reading
}

/// Whether a byte is one of the sixty-four that a label may hold.
pub fn listed(byte: u8) -> bool {
    // SAFETY: it takes a number and gives one.
    unsafe { proved::zabgurin_listed(byte) }
}

/// The length, without its spaces, of the label in the eight bytes at `at`: 1 to 8; 0 where no label stands there.
pub fn label_len(request: &[u8], at: usize) -> usize {
    // SAFETY: the pointer and the length are one slice's, which is only read, and only during the call.
    unsafe { proved::zabgurin_label_len(request.as_ptr(), request.len(), at) }
}

/// The exported functions, as `include/zabgurin.h` has them. A struct of more than two words comes back through a pointer that goes first, as in the C of x86-64; said outright,
/// that holds too on another processor, where the archive is made from the same module.
mod proved {
    use super::Reading;

    #[repr(C)]
    #[derive(Default)]
    pub struct Answer {
        pub number: u64,
        pub place: u64,
        pub tasks: u64,
        pub length: u64,
        pub cost: u64,
        pub left: u64,
    }

    #[repr(C)]
    pub struct Part {
        pub begin: usize,
        pub length: usize,
    }

    #[repr(C)]
    #[derive(Default)]
    pub struct Costs {
        pub number: u64,
        pub place: u64,
        pub cheapest: u64,
        pub heft: u64,
    }

    #[repr(C)]
    #[derive(Default)]
    pub struct Reason {
        pub number: u64,
        pub place: u64,
        pub reason: u64,
        pub task: u64,
        pub begin: u64,
        pub end: u64,
    }

    pub type Planner = unsafe extern "C" fn(
        answer: *mut Answer,
        request: *const u8,
        request_len: usize,
        processors: *mut u64,
        processors_len: usize,
        starts: *mut u64,
        starts_len: usize,
        finishes: *mut u64,
        finishes_len: usize,
        costs: *mut u64,
        costs_len: usize,
    );

    pub type Printer = unsafe extern "C" fn(
        request: *const u8,
        request_len: usize,
        text: *mut u8,
        text_len: usize,
    ) -> usize;

    extern "C" {
        pub fn zabgurin_plan(
            answer: *mut Answer,
            request: *const u8,
            request_len: usize,
            processors: *mut u64,
            processors_len: usize,
            starts: *mut u64,
            starts_len: usize,
            finishes: *mut u64,
            finishes_len: usize,
            costs: *mut u64,
            costs_len: usize,
        );
        pub fn zabgurin_cheapest(
            answer: *mut Answer,
            request: *const u8,
            request_len: usize,
            processors: *mut u64,
            processors_len: usize,
            starts: *mut u64,
            starts_len: usize,
            finishes: *mut u64,
            finishes_len: usize,
            costs: *mut u64,
            costs_len: usize,
        );
        pub fn zabgurin_heft(
            answer: *mut Answer,
            request: *const u8,
            request_len: usize,
            processors: *mut u64,
            processors_len: usize,
            starts: *mut u64,
            starts_len: usize,
            finishes: *mut u64,
            finishes_len: usize,
            costs: *mut u64,
            costs_len: usize,
        );
        pub fn zabgurin_print(
            request: *const u8,
            request_len: usize,
            text: *mut u8,
            text_len: usize,
        ) -> usize;
        pub fn zabgurin_print_cheapest(
            request: *const u8,
            request_len: usize,
            text: *mut u8,
            text_len: usize,
        ) -> usize;
        pub fn zabgurin_print_heft(
            request: *const u8,
            request_len: usize,
            text: *mut u8,
            text_len: usize,
        ) -> usize;
        pub fn zabgurin_range(costs: *mut Costs, request: *const u8, request_len: usize);
        pub fn zabgurin_why(
            told: *mut Reason,
            request: *const u8,
            request_len: usize,
            task: usize,
            start: u64,
        );
        pub fn zabgurin_label(request: *const u8, request_len: usize, task: usize) -> Part;
        pub fn zabgurin_read(reading: *mut Reading, request: *const u8, request_len: usize);
        pub fn zabgurin_listed(byte: u8) -> bool;
        pub fn zabgurin_label_len(request: *const u8, request_len: usize, at: usize) -> usize;
    }
}
