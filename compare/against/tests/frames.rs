//! Frames and calls are read as the compiler means them, and what must not be is found, in small texts of its form.
use against::frames::{Chain, Library};
use std::collections::BTreeSet;

/// Functions of these names and lines, each with a frame of 24 bytes.
fn library(functions: &[(&str, &[&str])]) -> Library {
    let (mut sizes, mut text) = (String::new(), String::new());
    for (name, lines) in functions {
        sizes += &format!("module.bc:{name}\t24\tstatic\n");
        text += &format!("\t.globl\t\"{name}\"\n\t.type\t\"{name}\",@function\n");
        text += &format!("\"{name}\":          # @\"{name}\"\n\tpushq\t%rbx\n\tsubq\t$16, %rsp\n");
        lines.iter().for_each(|line| text += &format!("\t{line}\n"));
        text += "\taddq\t$16, %rsp\n\tpopq\t%rbx\n\tretq\n";
    }
    Library::new(&sizes, &text)
}

#[test]
fn a_chain_has_frames_and_return_addresses() {
    let library = library(&[
        ("a", &["callq\tmemset@PLT", "callq\t\"b::c\""]),
        ("b::c", &["jmp\t.LBB1_2", "callq\tmemcpy@PLT", "jmp\tmemset@PLT            # TAILCALL"]),
        ("end", &["movq\t%rax, 8(%rsp)"]),
    ]);
    let functions = vec!["a", "b::c", "memcpy"];
    assert_eq!(library.deepest("a"), Chain { functions, bytes: 2 * (8 + 24) + 8 });
    assert_eq!(library.deepest("end"), Chain { functions: vec!["end"], bytes: 8 + 24 });
    assert!(library.exported().eq(["a", "b::c", "end"]));
}

#[test]
fn arguments_on_the_stack_are_counted() {
    let library =
        library(&[("a", &["pushq\t$1", "pushq\t$2", "callq\tb", "addq\t$16, %rsp"]), ("b", &[])]);
    assert_eq!(library.deepest("a").bytes, 8 + 24 + 16 + (8 + 24));
}

/// Of several calls those with the most; what the last line of a function adds is its frame.
#[test]
fn arguments_are_taken_back_before_the_next_call() {
    let twice =
        ["pushq\t$1", "callq\tb", "addq\t$8, %rsp", "nop", "pushq\t$1", "pushq\t$2", "callq\tb"];
    let behind = [&twice[..], &["addq\t$16, %rsp", "nop", "callq\tb"]].concat();
    let library = library(&[("a", &behind), ("b", &[])]);
    assert_eq!(library.deepest("a").bytes, 8 + 24 + 16 + (8 + 24));
}

/// It has the stack of the function that jumps there.
#[test]
fn a_jump_to_a_function_leaves_no_frame() {
    let library =
        library(&[("a", &["jne\tb@PLT        # TAILCALL"]), ("b", &["callq\tc"]), ("c", &[])]);
    let functions = vec!["a", "b", "c"];
    assert_eq!(library.deepest("a"), Chain { functions, bytes: 2 * (8 + 24) });
}

#[test]
fn the_red_zone_is_counted() {
    let library = library(&[("a", &["leaq\t-120(%rsp,%rax), %rcx"])]);
    assert_eq!(library.deepest("a").bytes, 8 + 24 + 128);
}

/// As the compiler writes it where it is shorter.
#[test]
fn a_frame_can_be_added() {
    let text = "\t.type\ta,@function\na:\n\taddq\t$-128, %rsp\n\tsubq\t$-128, %rsp\n\tretq\n";
    let library = Library::new("module.bc:a\t128\tstatic", text);
    assert_eq!(library.deepest("a").bytes, 8 + 128);
    assert_eq!(library.exported().count(), 0);
}

/// By a table in the function itself.
#[test]
fn a_jump_by_a_table_is_no_call() {
    let library = library(&[("a", &["jmpq\t*%rax"])]);
    assert_eq!(library.deepest("a").bytes, 8 + 24);
}

#[test]
fn what_is_called_outside_is_named() {
    let library =
        library(&[("a", &["callq\tmemcpy@PLT", "callq\tb"]), ("b", &["jmp\tmalloc@PLT"])]);
    assert_eq!(library.called_outside(), BTreeSet::from(["malloc", "memcpy"]));
}

#[test]
#[should_panic(expected = "a function calls itself: a -> a")]
fn a_call_of_itself_is_found() {
    library(&[("a", &["callq\ta"])]).deepest("a");
}

#[test]
#[should_panic(expected = "a function calls itself: a -> b -> c -> b")]
fn a_circle_is_found() {
    let functions: [(&str, &[&str]); 3] =
        [("a", &["callq\tb"]), ("b", &["callq\tc"]), ("c", &["jmp\tb"])];
    library(&functions).deepest("a");
}

#[test]
#[should_panic(expected = "an indirect call")]
fn an_indirect_call_is_found() {
    library(&[("a", &["callq\t*%rax"])]);
}

#[test]
#[should_panic(expected = "an indirect call")]
fn an_indirect_jump_to_a_function_is_found() {
    library(&[("a", &["jmpq\t*%rax                     # TAILCALL"])]);
}

#[test]
#[should_panic(expected = "a call of the system")]
fn a_call_of_the_system_is_found() {
    library(&[("a", &["syscall"])]);
}

#[test]
#[should_panic(expected = "a frame without a fixed size")]
fn a_frame_without_a_fixed_size_is_found() {
    Library::new("module.bc:a\t24\tdynamic", "\t.type\ta,@function\na:\n\tsubq\t$24, %rsp\n");
}

#[test]
#[should_panic(expected = "in a way that is not known here")]
fn a_stack_pointer_that_moves_by_a_register_is_found() {
    library(&[("a", &["subq\t%rax, %rsp"])]);
}

#[test]
#[should_panic(expected = "24 off the stack pointer, and the frame's size is 32: a")]
fn a_frame_that_the_text_does_not_take_is_found() {
    Library::new("module.bc:a\t32\tstatic", "\t.type\ta,@function\na:\n\tsubq\t$24, %rsp\n");
}

#[test]
#[should_panic(expected = "96 off the stack pointer, and the frame's size is 24: a")]
fn more_than_a_frame_and_arguments_is_found() {
    library(&[("a", &["pushq\t$1"; 9])]);
}

#[test]
#[should_panic(expected = "frames of no function")]
fn a_frame_of_no_function_is_found() {
    Library::new("module.bc:a\t24\tstatic", "");
}
