//! The example for C, built with the header and the proved library, prints what the independent program prints.
use compare::random::{Damage, Random};
use compare::samples;
use compare::shapes::{shaped, Budget, Deadline, Graph, Minimums, Numbers};
use compare::shapes::{MARKERS, SHARES, WINDOWS};
use std::io::Write;
use std::process::{Command, Stdio};

/// What the example prints for a request on its standard input.
fn printed(request: &[u8]) -> Vec<u8> {
    let mut words = env!("EXAMPLE").split('\u{1f}');
    let mut command = Command::new(words.next().expect("a program to run"));
    command.args(words).stdin(Stdio::piped()).stdout(Stdio::piped());
    let mut example = command.spawn().unwrap_or_else(|error| panic!("{command:?}: {error}"));
    example.stdin.take().expect("a pipe").write_all(request).expect("it reads all");
    let output = example.wait_with_output().expect("it ends");
    assert!(output.status.success(), "{}", output.status);
    output.stdout
}

#[test]
fn the_samples() {
    for (name, request) in samples::all() {
        assert_eq!(printed(&request), compare::text(&request), "{name}");
    }
    assert_eq!(
        printed(&samples::all()[0].1),
        b"plan 3 14 26 2\nprep 1 0 4 12\nleft 0 6 14 8\nright 1 4 6 6\n"
    );
}

#[test]
fn large_and_damaged_requests() {
    let mut random = Random(0xc0de_5eed_0000_0001);
    for (k, damage) in Damage::ALL.into_iter().enumerate() {
        let (windows, markers) = (WINDOWS[k % WINDOWS.len()], MARKERS[k % MARKERS.len()]);
        let (numbers, budget, deadline) = (Numbers::Any, Budget::Tight, Deadline::None);
        let (least, share) = (Minimums::Near, SHARES[k % SHARES.len()]);
        let shape = (Graph::Dense, numbers, budget, deadline, least, windows, markers, share);
        let mut request = shaped(&mut random, (64, 16), shape).bytes();
        assert_eq!(printed(&request), compare::text(&request), "{request:?}");
        damage.to(&mut random, &mut request);
        assert_eq!(printed(&request), compare::text(&request), "{request:?}");
    }
    assert_eq!(printed(b""), b"no 1 0\n");
}
