//! Limited memory: the program reports that memory ran out, and has an exit status for that.

use crate::json_value::Value;
use crate::{PROGRAM, component, file, file_of, start};
use std::path::Path;
use std::process::{Command, Output};
use wenc::tree::Space;
use wenc::{ComponentNameSection, ComponentSection, DebugNames};

/// The step from one limit to the next, in KiB.
const STEP: usize = 64;

/// The maximum number of steps of memory that the program requests at its start and doesn't need
/// for an empty file.
const UNUSED: usize = 5;

/// Runs the program with this many KiB of memory.
fn limited(kib: usize, options: &[&str], file: &Path) -> Output {
    let mut shell = Command::new("sh");
    shell.args(["-c", "ulimit -v \"$0\" && exec \"$@\"", &kib.to_string(), PROGRAM]);
    shell.args(options).arg(file).output().expect("the shell is there")
}

/// The least limit under which the program starts.
fn least() -> usize {
    let empty = file("limits_empty", b"");
    let mut limits = (1024..1 << 20).step_by(STEP);
    limits.find(|kib| limited(*kib, &[], &empty).status.success()).expect("it starts")
}

/// Returns how many limits are too low for the file with these options. In each of them the program
/// reports that memory ran out; in the next one it does what it does without a limit.
fn refusals(options: &[&str], file: &Path) -> usize {
    let (ample, message) =
        (start(options, file), format!("wenc-dump: {}: memory ran out\n", file.display()));
    let limits = (least()..).step_by(STEP).take_while(|kib| {
        let output = limited(*kib, options, file);
        if output == ample {
            return false;
        }
        let err = String::from_utf8_lossy(&output.stderr);
        assert_eq!((output.status.code(), &*err), (Some(3), &*message), "{kib}");
        if options == ["--json"] {
            let out = Value::read(std::str::from_utf8(&output.stdout).expect("text"));
            assert_eq!(out.at("fault").at("message").text(), "memory ran out");
        }
        true
    });
    limits.count()
}

/// Returns the lesser and the greater number of limits that are too low, of text and JSON.
fn sweep(file: &Path) -> (usize, usize) {
    let (text, json) = (refusals(&[], file), refusals(&["--json"], file));
    (text.min(json), text.max(json))
}

/// Expects that memory runs out under at least this many limits.
fn expect_refusals(file: &Path, expected: usize) {
    let (least, _) = sweep(file);
    assert!(least >= expected, "{}: {least}", file.display());
}

/// Expects that the file takes the memory for its bytes, and no more but two steps.
fn expect_its_bytes(file: &Path) -> usize {
    let steps = usize::try_from(file.metadata().expect("it is there").len()).expect("it is small")
        / (STEP << 10);
    let (least, most) = sweep(file);
    assert!(
        steps <= least + 1 + UNUSED && most <= steps + 2,
        "{}: {least} to {most}",
        file.display()
    );
    least
}

/// The number, in 5 bytes.
fn padded(number: usize) -> [u8; 5] {
    let byte = |at: usize| u8::try_from(number >> (7 * at) & 0x7f).expect("it has 7 bits");
    [byte(0) | 0x80, byte(1) | 0x80, byte(2) | 0x80, byte(3) | 0x80, byte(4)]
}

/// A section with this content.
fn section(id: u8, content: &[u8]) -> Vec<u8> {
    [&[id][..], &padded(content.len()), content].concat()
}

/// Types of any size are printed as they are read.
#[test]
fn a_large_type() {
    let declared = b"\x01\x7f".repeat(600_000);
    let ty = [&[1, 0x42][..], &padded(600_000), &declared].concat();
    assert!(expect_its_bytes(&file("limits_type", &section(7, &ty))) > 10);
}

#[test]
fn a_large_custom_section_and_what_is_around_it() {
    let custom = section(0, &[&[1, b'x'][..], &[7; 1 << 20]].concat());
    let nested = section(4, &component(&section(4, &component(&custom))));
    expect_refusals(&file("limits_custom", &nested), 10);
}

#[test]
fn long_names_of_a_core_module() {
    let name = [&padded(1 << 19)[..], &[b'n'; 1 << 19]].concat();
    let imports = section(2, &[&[1][..], &name, &name, &[0, 0]].concat());
    let custom = section(0, &name);
    let module = [b"\0asm\x01\0\0\0", &imports[..], &custom].concat();
    expect_refusals(&file_of("limits_module", &module), 10);
}

#[test]
fn many_debug_names() {
    let mut names = DebugNames::new();
    names.set_component("n".repeat(1 << 18));
    (0..20_000).for_each(|index| names.insert(Space::Types, index, "name"));
    let mut bytes = component(b"\x07\x03\x01\x69\0");
    ComponentNameSection::from(&names).append_to_component(&mut bytes);
    expect_refusals(&file_of("limits_names", &bytes), 10);
}

/// To find a wrong size, there is memory for each byte after the fault.
#[test]
fn a_fault_before_many_bytes() {
    let imports = [&b"\x01\0\x01f\x09"[..], &[0; 1 << 20]].concat();
    let file = file("limits_fault", &section(10, &imports));
    let cause = String::from_utf8(start(&[], &file).stderr).expect("text");
    assert!(cause.ends_with(": 0x09 at 0x12, where 0x00 to 0x05 is expected\n"), "{cause}");
    let refused = refusals(&[], &file);
    assert!(refused >= 10, "{refused}");
}

/// Types in types are printed one in the other.
#[test]
fn deep_types() {
    let mut ty = vec![0x42, 0];
    for _ in 0..99 {
        let aliases = b"\x01\x7f".repeat(100);
        ty = [&[0x42][..], &padded(101), &aliases, &[1], &ty].concat();
    }
    expect_its_bytes(&file("limits_deep", &section(7, &[&[1][..], &ty].concat())));
}

/// A page of many types, and one of many bytes.
#[test]
fn pages() {
    let types = [&padded(40_000)[..], &b"\x70\x73".repeat(40_000)].concat();
    let refused = refusals(&["--html"], &file("limits_page", &section(7, &types)));
    assert!(refused >= 10, "{refused}");
    let custom = section(0, &[&[1, b'x'][..], &[7; 1 << 20]].concat());
    let refused = refusals(&["--html"], &file("limits_page_of_bytes", &custom));
    assert!(refused >= 10, "{refused}");
}

/// The other files are printed, and the status is that of the worst fault.
#[test]
fn files_after_the_one_that_memory_ran_out_in() {
    let custom = section(0, &[&[1, b'x'][..], &[7; 1 << 20]].concat());
    let (large, bad) = (file("limits_first", &custom), file_of("limits_bad", b""));
    let empty = file("limits_second", b"");
    let (large, empty) = (large.to_str().expect("text"), empty.to_str().expect("text"));
    let output = limited(least() + STEP, &[large, empty], &bad);
    let out = String::from_utf8_lossy(&output.stdout);
    assert!(out.contains(&format!("{empty}:\n0x0..0x8 component, 8 bytes\n")), "{out}");
    let bad =
        format!("wenc-dump: {}: no component's header at 0x0: found an empty file", bad.display());
    let err = format!("wenc-dump: {large}: memory ran out\n{bad}\n");
    assert_eq!(String::from_utf8_lossy(&output.stderr), err);
    assert_eq!(output.status.code(), Some(3));
}
