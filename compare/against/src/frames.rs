//! The library's functions as its compiler writes them down: the stack frame of each, and what it calls.
use std::collections::{BTreeMap, BTreeSet};
use std::fs;
use std::path::Path;

/// What a call puts on the stack.
const RETURN_ADDRESS: usize = 8;

/// How much more than its frame a function may take off the stack pointer: arguments that it hands over there, which the
/// compiler's sizes leave out.
const ARGUMENTS: usize = 64;

/// How far below its frame a function that calls nothing may write. The compiler's sizes of frames leave it out.
const RED_ZONE: usize = 128;

pub struct Library(BTreeMap<String, Function>);

#[derive(Default)]
struct Function {
    exported: bool,
    /// What it takes off the stack pointer: its frame, and the arguments that it hands over on the stack.
    frame: usize,
    /// The arguments of each call that are taken back right behind it, and what the last instruction says of them.
    arguments: Vec<usize>,
    last: Last,
    uses_red_zone: bool,
    calls: BTreeSet<String>,
    /// What it goes on to at its end, with its frame gone and its return address left.
    jumps: BTreeSet<String>,
}

/// The last instruction: a call; or, behind one, so many bytes added to the stack pointer.
#[derive(Default)]
enum Last {
    #[default]
    Other,
    Call,
    TakenBack(usize),
}

/// Functions, each called by the one before it, and how many bytes of stack they take: their frames and return
/// addresses. Of a function outside the library, which can only be the last, it is the return address alone.
#[derive(Clone, Debug, PartialEq, Eq)]
pub struct Chain<'a> {
    pub functions: Vec<&'a str>,
    pub bytes: usize,
}

impl Library {
    /// What `rust/archive` left of the library that the driver is linked with.
    pub fn built() -> Library {
        let target = Path::new(env!("CARGO_MANIFEST_DIR")).join("../../target");
        let read = |name: &str| {
            fs::read(target.join(name))
                .unwrap_or_else(|error| panic!("{name}: {error}: run `rust/archive` first"))
        };
        assert!(
            read("staticlib/libexports.a") == read("frames/libexports.a"),
            "target/frames is of another library than target/staticlib: run `rust/archive` again"
        );
        let text = |name| String::from_utf8(read(name)).expect("a text");
        Library::new(&text("frames/exports.su"), &text("frames/exports.s"))
    }

    /// From the sizes of the frames and the assembly text. Panics where a frame has no fixed size, where the text takes
    /// less off the stack pointer than the frame's size or more than arguments need, and where it does not say what is
    /// called.
    pub fn new(sizes: &str, text: &str) -> Library {
        let mut functions: BTreeMap<String, Function> = BTreeMap::new();
        let (mut exported, mut current) = (BTreeSet::new(), String::new());
        for line in text.lines() {
            let code = line.split('#').next().unwrap_or_default().trim();
            let (word, rest) = code.split_once(char::is_whitespace).unwrap_or((code, ""));
            if word == ".globl" {
                exported.insert(name(rest));
            } else if word == ".type" {
                if let Some(function) = rest.strip_suffix(",@function") {
                    functions.insert(name(function), Function::default());
                }
            } else if let Some(label) = word.strip_suffix(':') {
                if !label.starts_with(".L") {
                    current = name(label);
                }
            } else if let Some(function) = functions.get_mut(&current) {
                function.instruction(word, rest, line);
            }
        }
        let mut sizes: BTreeMap<String, usize> = sizes.lines().map(size).collect();
        for (name, function) in &mut functions {
            // One call's arguments are gone before those of the next are there.
            let gone = function.arguments.iter().sum::<usize>();
            function.frame -= gone - function.arguments.iter().max().unwrap_or(&0);
            let (taken, size) = (function.frame, sizes.remove(name).unwrap_or(usize::MAX));
            assert!(
                size <= taken && taken <= size + ARGUMENTS,
                "{taken} off the stack pointer, and the frame's size is {size}: {name}"
            );
            function.exported = exported.contains(name);
        }
        assert!(sizes.is_empty(), "frames of no function: {sizes:?}");
        Library(functions)
    }

    pub fn functions(&self) -> impl Iterator<Item = &str> {
        self.0.keys().map(String::as_str)
    }

    /// What others can call.
    pub fn exported(&self) -> impl Iterator<Item = &str> {
        self.functions().filter(|&name| self.0[name].exported)
    }

    /// What it calls that is not its own.
    pub fn called_outside(&self) -> BTreeSet<&str> {
        let called = self.0.values().flat_map(|function| function.calls.union(&function.jumps));
        called.filter(|&name| !self.0.contains_key(name)).map(String::as_str).collect()
    }

    /// The deepest chain from a call of this function on. Panics where a function calls itself, by whatever way.
    pub fn deepest<'a>(&'a self, name: &'a str) -> Chain<'a> {
        self.deepest_below(&[], name)
    }

    fn deepest_below<'a>(&'a self, above: &[&'a str], name: &'a str) -> Chain<'a> {
        let functions = [above, &[name]].concat();
        assert!(!above.contains(&name), "a function calls itself: {}", functions.join(" -> "));
        let mut deepest = Chain { functions: vec![name], bytes: RETURN_ADDRESS };
        let Some(function) = self.0.get(name) else { return deepest };
        deepest.bytes += function.frame + if function.uses_red_zone { RED_ZONE } else { 0 };
        let calls = function.calls.iter().map(|callee| (callee, RETURN_ADDRESS + function.frame));
        for (callee, left) in calls.chain(function.jumps.iter().map(|callee| (callee, 0))) {
            let mut chain = self.deepest_below(&functions, callee);
            chain.bytes += left;
            chain.functions.insert(0, name);
            if chain.bytes > deepest.bytes {
                deepest = chain;
            }
        }
        deepest
    }
}

impl Function {
    /// One more instruction, its word and the rest without the comment.
    fn instruction(&mut self, word: &str, rest: &str, line: &str) {
        if word.is_empty() || word.starts_with('.') {
            return;
        }
        // What is added right before the function's end is its frame.
        let last = std::mem::take(&mut self.last);
        if let (Last::TakenBack(by), false) =
            (&last, word.starts_with("pop") || word.starts_with("ret"))
        {
            self.arguments.push(*by);
        }
        if word.starts_with("call") {
            self.last = Last::Call;
            assert!(!rest.starts_with('*'), "an indirect call: {line}");
            self.calls.insert(name(rest));
        } else if word.starts_with('j') && !rest.starts_with(".L") {
            // The compiler marks a jump to another function. An indirect one without the mark stays in this function.
            let indirect = rest.starts_with('*');
            assert!(!indirect || !line.contains("TAILCALL"), "an indirect call: {line}");
            if !indirect {
                self.jumps.insert(name(rest));
            }
        } else if word.starts_with("push") {
            self.frame += 8;
        } else if let Some(by) = rest.strip_suffix(", %rsp") {
            let by = by.strip_prefix('$').and_then(|by| by.parse::<isize>().ok());
            if let (Last::Call, "addq", Some(by @ 1..)) = (last, word, by) {
                self.last = Last::TakenBack(by as usize);
            }
            self.frame += match (word, by) {
                ("subq", Some(by)) => by.max(0) as usize,
                ("addq", Some(by)) => (-by).max(0) as usize,
                _ => panic!("the stack pointer moves in a way that is not known here: {line}"),
            };
        }
        assert!(word != "syscall" && word != "int", "a call of the system: {line}");
        let below =
            |(at, _)| rest[..at].trim_end_matches(|c: char| c.is_ascii_digit()).ends_with('-');
        self.uses_red_zone |= rest.match_indices("(%rsp").any(below);
    }
}

/// The name of a function in the text, without its quotes and without where to look it up.
fn name(written: &str) -> String {
    written.trim_end_matches("@PLT").trim_matches('"').to_string()
}

/// A line of the sizes: the file and the function, its bytes, and of what kind the frame is.
fn size(line: &str) -> (String, usize) {
    let fields: Vec<&str> = line.split('\t').collect();
    let [place, bytes, "static"] = fields[..] else {
        panic!("a frame without a fixed size: {line}")
    };
    let (_, name) = place.split_once(':').expect("a file and a function");
    (name.to_string(), bytes.parse().expect("a number"))
}
