//! The commands at the repository's root, without a kit: what they do with a wrong call, and, with a stand-in for the
//! kit, which program each runs.

use std::os::unix::fs::{symlink, PermissionsExt};
use std::path::{Path, PathBuf};
use std::process::{Command, Output, Stdio};
use std::{env, fs};

const ROOT: &str = concat!(env!("CARGO_MANIFEST_DIR"), "/..");

/// An empty folder of this name.
fn folder(name: &str) -> PathBuf {
    let folder = Path::new(env!("CARGO_TARGET_TMPDIR")).join(name);
    if folder.exists() {
        fs::remove_dir_all(&folder).expect("it is the test's own");
    }
    fs::create_dir_all(&folder).expect("a folder");
    folder
}

/// Links these commands of the system into a folder.
fn link(folder: &Path, commands: &[&str]) {
    let path = env::var_os("PATH").expect("there is a PATH");
    for command in commands {
        let mut found = env::split_paths(&path).map(|folder| folder.join(command));
        let found = found.find(|file| file.is_file()).unwrap_or_else(|| panic!("no {command}"));
        symlink(found, folder.join(command)).expect("a link");
    }
}

fn script(file: &Path, text: &str) {
    fs::write(file, format!("#!/usr/bin/env bash\n{text}\n")).expect("a file");
    fs::set_permissions(file, PermissionsExt::from_mode(0o755)).expect("its own file");
}

/// Runs a command of this root with nothing but what is in this folder.
fn run(root: &Path, tools: &Path, words: &[&str], input: Stdio) -> Output {
    let mut command = Command::new(root.join(words[0]));
    command.args(&words[1..]).env("PATH", tools).stdin(input);
    command.output().unwrap_or_else(|error| panic!("{words:?}: {error}"))
}

/// Where nothing can be proved or built, these words end with this status, print nothing and say this.
fn ends(tools: &Path, words: &[&str], status: i32, said: &str) {
    let output = run(Path::new(ROOT), tools, words, Stdio::null());
    let error = String::from_utf8_lossy(&output.stderr);
    assert_eq!(output.status.code(), Some(status), "{words:?}: {error}");
    assert!(output.stdout.is_empty(), "{words:?}");
    assert!(error.starts_with(said), "{words:?}: {error}");
}

/// A request.
const SAMPLE: &str = concat!(env!("CARGO_MANIFEST_DIR"), "/../samples/s28.request");

/// Tools without a kit, in a folder of this name.
fn no_kit(name: &str) -> PathBuf {
    let tools = folder(name);
    link(&tools, &["bash", "dirname"]);
    tools
}

#[test]
fn without_a_kit() {
    let tools = no_kit("no-kit");
    // A wrong call: an option that there is not, two files, an option behind the file or twice.
    let usage = "plan [--cheapest | --heft] [FILE]: ";
    ends(&tools, &["plan", "--best", SAMPLE], 2, usage);
    ends(&tools, &["plan", "--best"], 2, usage);
    ends(&tools, &["plan", "-c", SAMPLE], 2, usage);
    ends(&tools, &["plan", "-"], 2, usage);
    ends(&tools, &["plan", SAMPLE, SAMPLE], 2, usage);
    ends(&tools, &["plan", SAMPLE, "--heft"], 2, usage);
    ends(&tools, &["plan", "--", SAMPLE], 2, usage);
    ends(&tools, &["plan", SAMPLE, "--", SAMPLE], 2, usage);
    for method in ["--cheapest", "--heft"] {
        ends(&tools, &["plan", method, SAMPLE, SAMPLE], 2, usage);
        ends(&tools, &["plan", method, "--best"], 2, usage);
        ends(&tools, &["plan", method, method], 2, usage);
        ends(&tools, &["plan", method, method, SAMPLE], 2, usage);
    }
    for command in ["range", "by_processor"] {
        let usage = format!("{command} [FILE]: ");
        ends(&tools, &[command, SAMPLE, SAMPLE], 2, &usage);
        ends(&tools, &[command, "--heft"], 2, &usage);
        ends(&tools, &[command, "--cheapest", SAMPLE], 2, &usage);
    }
    // A file that cannot be read; and one that can, but there is no kit.
    let calls: [&[&str]; 5] =
        [&["plan"], &["plan", "--cheapest"], &["plan", "--heft"], &["range"], &["by_processor"]];
    for call in calls {
        let program = call.last().expect("a word").trim_start_matches("--");
        let missing = format!("{program}: /no/such/file cannot be read");
        ends(&tools, &[call, &["/no/such/file"]].concat(), 1, &missing);
        ends(&tools, &[call, &[ROOT]].concat(), 1, &format!("{program}: {ROOT} cannot be read"));
        let no_kit = format!("{program}: there is no command rt here");
        ends(&tools, &[call, &[SAMPLE]].concat(), 1, &no_kit);
        ends(&tools, call, 1, &no_kit);
    }
}

/// It is called with a file and two numbers.
#[test]
fn why_without_a_kit() {
    let tools = no_kit("no-kit-for-why");
    let usage = "why FILE TASK START: ";
    let calls: [&[&str]; 6] = [
        &[],
        &[SAMPLE],
        &[SAMPLE, "1"],
        &[SAMPLE, "1", "0", "0"],
        &["--heft", "1", "0"],
        &["-", "1", "0"],
    ];
    for call in calls {
        ends(&tools, &[&["why"], call].concat(), 2, usage);
    }
    for bad in ["", " ", "1 ", "left", "-1", "+1", "1.0", "1e1", "0x1", "1\n0", "$task", "\u{663}"]
    {
        ends(&tools, &["why", SAMPLE, bad, "0"], 2, usage);
        ends(&tools, &["why", SAMPLE, "1", bad], 2, usage);
    }
    for file in ["/no/such/file", ROOT] {
        let said = format!("why: {file} cannot be read");
        ends(&tools, &["why", file, "1", "0"], 1, &said);
    }
    ends(&tools, &["why", SAMPLE, "1", "0"], 1, "why: there is no command rt here");
}

/// A root with all commands, tools with a stand-in for the kit, and a request. What is built says its name and its words
/// and prints what it reads.
fn stand_in(name: &str) -> (PathBuf, PathBuf, String) {
    let root = folder(name);
    let tools = root.join("tools");
    for made in ["tools", "scripts", "crates"] {
        fs::create_dir(root.join(made)).expect("a folder");
    }
    fs::write(root.join("crates.txt"), "").expect("a file");
    for command in ["plan", "range", "by_processor", "why", "scripts/program"] {
        fs::copy(Path::new(ROOT).join(command), root.join(command)).expect("a command");
    }
    link(&tools, &["bash", "dirname", "find", "mkdir", "touch", "cat", "chmod"]);
    script(&tools.join("uname"), "echo x86_64");
    for program in ["plan", "cheapest", "heft", "range", "by_processor", "why"] {
        fs::create_dir(root.join("crates").join(program)).expect("a folder");
    }
    // It is called in the program's folder.
    let built = r#"name=${PWD##*/}
mkdir -p out
printf '#!/usr/bin/env bash\necho "%s" "$@"\ncat\n' "$name" >out/"$name"
chmod +x out/"$name""#;
    script(&tools.join("rt"), &format!("[ \"$1\" = run ] || exit 1\n{built}"));
    let request = root.join("a request");
    fs::write(&request, "bytes").expect("a file");
    (root, tools, request.to_str().expect("a path in UTF-8").to_string())
}

#[test]
fn which_program_is_run() {
    let (root, tools, request) = stand_in("commands");
    let calls: [(&[&str], &str); 5] = [
        (&["plan"], "plan"),
        (&["plan", "--cheapest"], "cheapest"),
        (&["plan", "--heft"], "heft"),
        (&["range"], "range"),
        (&["by_processor"], "by_processor"),
    ];
    // The first time it is built, and says so.
    for built in [false, true] {
        for (call, program) in calls {
            let expected = format!("{program}\nbytes");
            let output = run(&root, &tools, &[call, &[&request]].concat(), Stdio::null());
            let error = String::from_utf8_lossy(&output.stderr);
            assert_eq!(output.status.code(), Some(0), "{call:?}: {error}");
            assert_eq!(String::from_utf8_lossy(&output.stdout), expected, "{call:?}");
            let says = error.starts_with(&format!("{program}: proving and building"));
            assert!(says != built && error.is_empty() == built, "{call:?}: {error}");
            let input = fs::File::open(&request).expect("the request");
            let output = run(&root, &tools, call, input.into());
            assert_eq!(output.status.code(), Some(0), "{call:?}");
            assert_eq!(String::from_utf8_lossy(&output.stdout), expected, "{call:?}");
        }
    }
}

/// The program has the task and the start for its words, in at most 17 digits.
#[test]
fn what_why_asks_and_says() {
    let (root, tools, request) = stand_in("why");
    let said = |task: &str, start: &str| {
        let output = run(&root, &tools, &["why", &request, task, start], Stdio::null());
        let text = |bytes: &[u8]| String::from_utf8_lossy(bytes).into_owned();
        (output.status.code(), text(&output.stdout), text(&output.stderr))
    };
    // The first time it is built, and says so.
    let (status, asked, error) = said("1", "0");
    assert_eq!((status, asked.as_str()), (Some(0), "why 1 0\nbytes\n"));
    assert!(error.starts_with("why: proving and building"), "{error}");
    let numbers = [
        ("0", "0"),
        ("000", "0"),
        ("007", "7"),
        ("100", "100"),
        ("12345678901234567", "12345678901234567"),
        ("00012345678901234567", "12345678901234567"),
        ("123456789012345678", "99999999999999999"),
        ("18446744073709551616", "99999999999999999"),
    ];
    for (number, handed_on) in numbers {
        let answer = |words: &str| (Some(0), format!("why {words}\nbytes\n"), String::new());
        assert_eq!(said(number, "5"), answer(&format!("{handed_on} 5")));
        assert_eq!(said("5", number), answer(&format!("5 {handed_on}")));
    }
    // A task that there is not; and a program that does not end well.
    let program = root.join("crates/why/out/why");
    script(&program, "echo none 3\necho There is no such task.");
    let error = "why: there is no task 7: the request has 3, numbered from 0\n";
    assert_eq!(said("7", "0"), (Some(2), String::new(), error.to_string()));
    script(&program, "echo data 0 6\nexit 1");
    assert_eq!(said("1", "0"), (Some(1), String::new(), String::new()));
}
