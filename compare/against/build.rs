//! Builds `driver.c` and the example for C with the archive of the proved code, which the repository's root builds, and
//! hands on the words of the commands that run them. The archive is for x86-64: on another processor the programs are
//! built by the kit's compiler and linker and run under the kit's emulator.
use std::path::{Path, PathBuf};
use std::process::{self, Command};
use std::{env, fs};

fn main() {
    let here = PathBuf::from(variable("CARGO_MANIFEST_DIR"));
    let root = here.join("../..");
    let archive = root.join("target/staticlib/libexports.a");
    println!("cargo:rerun-if-changed={}", archive.display());
    if !archive.is_file() {
        let archive = archive.display();
        fail(&format!(
            "{archive} is not there: run `rust/archive` first"
        ));
    }
    let include = root.join("include");
    println!("cargo:rerun-if-changed={}", include.display());
    let programs = [("DRIVER", here.join("driver.c")), ("EXAMPLE", root.join("examples/plan.c"))];
    for (name, source) in programs {
        println!("cargo:rerun-if-changed={}", source.display());
        let program = Path::new(&variable("OUT_DIR")).join(name);
        let command = if variable("CARGO_CFG_TARGET_ARCH") == "x86_64" {
            native(&source, &include, &archive, program)
        } else {
            emulated(&source, &include, &archive, program)
        };
        let words: Vec<&str> =
            command.iter().map(|word| word.to_str().expect("a path in UTF-8")).collect();
        println!("cargo:rustc-env={name}={}", words.join("\u{1f}"));
    }
}

fn variable(name: &str) -> String {
    env::var(name).unwrap_or_else(|_| panic!("cargo sets {name}"))
}

const WARNINGS: [&str; 3] = ["-Wall", "-Wextra", "-Werror"];

/// Built by the system's compiler.
fn native(source: &Path, include: &Path, archive: &Path, program: PathBuf) -> Vec<PathBuf> {
    println!("cargo:rerun-if-env-changed=CC");
    let compiler = env::var_os("CC").unwrap_or_else(|| "cc".into());
    run(Command::new(compiler)
        .args(WARNINGS)
        .args(["-O2", "-pthread", "-I"])
        .arg(include)
        .arg("-o")
        .args([&program, source, archive]));
    vec![program]
}

/// Built and run as `rt` builds and runs the programs of the repository. The C library's headers are this machine's,
/// which say the same of what the example uses.
fn emulated(source: &Path, include: &Path, archive: &Path, program: PathBuf) -> Vec<PathBuf> {
    const TARGET: &str = "x86_64-unknown-linux-gnu";
    println!("cargo:rerun-if-env-changed=PATH");
    let path = env::var_os("PATH").unwrap_or_default();
    let rt = env::split_paths(&path).map(|folder| folder.join("rt")).find(|rt| rt.is_file());
    let rt = rt.unwrap_or_else(|| fail("no folder of PATH has rt"));
    println!("cargo:rerun-if-changed={}", rt.display());
    let rt = fs::canonicalize(rt).unwrap_or_else(|error| fail(&format!("rt: {error}")));
    let kit = rt.ancestors().nth(2).unwrap_or_else(|| fail("rt stands in no kit"));
    let own = kit.join("on").join(env::consts::ARCH);
    let tools = own.join("toolchain");
    let object = program.with_extension("o");
    let system = said("cc", "-print-file-name=include");
    let multiarch = format!("/usr/include/{}", said("cc", "-print-multiarch"));
    run(Command::new(tools.join("bin/clang"))
        .args(WARNINGS)
        .args(["-target", TARGET, "-O2", "-fPIE", "-nostdinc", "-I"])
        .arg(include)
        .args(["-isystem", &system, "-isystem", "/usr/include", "-isystem", &multiarch])
        .args(["-c", "-o"])
        .args([&object, source]));
    run(Command::new(own.join("bin/rattle-link"))
        .args(["--target", TARGET, "--toolchain"])
        .arg(&tools)
        .arg("-o")
        .args([&program, &object, archive]));
    let library = tools.join("lib");
    let loader = library.join("ld-linux-x86-64.so.2");
    vec![tools.join("bin/qemu-x86_64"), loader, "--library-path".into(), library, program]
}

/// The line that a command prints.
fn said(command: &str, word: &str) -> String {
    match Command::new(command).arg(word).output() {
        Ok(output) if output.status.success() => {
            String::from_utf8_lossy(&output.stdout).trim().to_string()
        }
        Ok(output) => fail(&format!("{command} {word} ended with {}", output.status)),
        Err(error) => fail(&format!("{command} {word} did not start: {error}")),
    }
}

fn run(command: &mut Command) {
    match command.status() {
        Ok(status) if status.success() => {}
        Ok(status) => fail(&format!("{command:?} ended with {status}")),
        Err(error) => fail(&format!("{command:?} did not start: {error}")),
    }
}

fn fail(what: &str) -> ! {
    eprintln!("{what}");
    process::exit(1);
}
