//! The requests of `samples/`.

use crate::build::{sample, Draft};

/// Their names and bytes.
pub fn all() -> Vec<(&'static str, Vec<u8>)> {
    let mut semicolon = sample(28).bytes();
    // The first byte of the first label.
    semicolon[15] = b';';
    // Processor 1 bills at least 10 for a task.
    let minimum = sample(28).with_minimums(&[None, Some(10)]);
    // Each processor is down once.
    let windows = sample(28).with_windows(&[(0, 7, 9), (1, 4, 30)]);
    // The budget lies between what the cheapest plan and the HEFT plan cost: it is 28 again.
    let share = sample(0).with_share(667);
    vec![
        ("s28", sample(28).bytes()),
        ("share", share.bytes()),
        ("semicolon", semicolon),
        ("gap", gap().bytes()),
        ("minimum", minimum.bytes()),
        ("windows", windows.bytes()),
        ("markers", markers().bytes()),
        ("ten", ten().bytes()),
    ]
}

/// The sample with a fourth task, which runs in a gap.
fn gap() -> Draft {
    let mut draft = sample(31);
    draft.tasks.push(("note".to_string(), vec![3, 6]));
    draft
}

/// The sample's two last tasks, as a program might export them: with a first task, one
/// behind both and a last one that take no time. The last has the lowest number, and
/// the rank of the one before it.
fn markers() -> Draft {
    let minutes: [&[u16]; 5] = [&[0, 0], &[8, 4], &[6, 2], &[0, 0], &[0, 0]];
    let edges = [(1, 3, 2), (2, 3, 3), (3, 0, 0), (4, 1, 0), (4, 2, 0)];
    let draft = Draft::new(20, &[1, 3], &minutes, &edges);
    labelled(draft, &["end", "left", "right", "join", "start"])
}

/// Ten tasks of a small analysis on three machines, with a deadline.
fn ten() -> Draft {
    let minutes: [&[u16]; 10] = [
        &[30, 18, 9],
        &[40, 24, 12],
        &[40, 24, 12],
        &[25, 15, 8],
        &[60, 36, 18],
        &[55, 33, 17],
        &[35, 21, 11],
        &[20, 12, 6],
        &[45, 27, 14],
        &[15, 9, 5],
    ];
    let edges = [
        (0, 1, 5),
        (0, 2, 5),
        (0, 3, 3),
        (1, 4, 8),
        (2, 4, 8),
        (2, 5, 8),
        (3, 6, 4),
        (4, 8, 10),
        (5, 8, 10),
        (6, 7, 2),
        (7, 9, 3),
        (8, 9, 6),
    ];
    let mut draft = Draft::new(450, &[1, 2, 5], &minutes, &edges);
    draft.deadline = Some(240);
    let labels = [
        "fetch", "clean-a", "clean-b", "index", "align-a", "align-b", "count", "norm", "model",
        "report",
    ];
    labelled(draft, &labels)
}

/// The same with these for labels.
fn labelled(mut draft: Draft, labels: &[&str]) -> Draft {
    for (task, label) in draft.tasks.iter_mut().zip(labels) {
        task.0 = label.to_string();
    }
    draft
}

#[cfg(test)]
mod tests {
    use std::fs;

    /// And no file is another.
    #[test]
    fn the_files_are_these() {
        let folder = concat!(env!("CARGO_MANIFEST_DIR"), "/../samples");
        let files = fs::read_dir(folder).expect("the samples are there");
        let mut names: Vec<String> = files
            .map(|file| file.expect("an entry").file_name().to_string_lossy().into_owned())
            .filter(|name| name.ends_with(".request"))
            .collect();
        names.sort();
        let all = super::all();
        let mut due: Vec<String> = all.iter().map(|(name, _)| format!("{name}.request")).collect();
        due.sort();
        assert_eq!(names, due);
        for (name, request) in all {
            let file = format!("{folder}/{name}.request");
            assert_eq!(fs::read(&file).ok(), Some(request), "{file}");
        }
    }
}
