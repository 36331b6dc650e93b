//! The header from C: a program that links the library, and the slot's layout.

use harness::library::Slot;
use std::mem::{align_of, offset_of, size_of};
use std::path::{Path, PathBuf};
use std::process::Command;

/// Compiles a C file of this package with the header and the library, runs it
/// and hands back what it printed.
fn run(name: &str) -> String {
    let package = Path::new(env!("CARGO_MANIFEST_DIR"));
    let program: PathBuf = Path::new(env!("CARGO_TARGET_TMPDIR")).join(name);
    let compiler = std::env::var("CC").unwrap_or("cc".to_string());
    let built = Command::new(compiler)
        .args(["-std=c11", "-Wall", "-Wextra", "-Werror", "-O2", "-I"])
        .arg(package.join("../include"))
        .arg(package.join(format!("{name}.c")))
        .arg(package.join("../target/native/libtempuquile.a"))
        .arg("-o")
        .arg(&program)
        .status()
        .expect("a C compiler is there");
    assert!(built.success());
    let said = Command::new(&program).output().expect("it runs");
    assert!(said.status.success());
    String::from_utf8(said.stdout).expect("it prints text")
}

#[test]
fn the_pair_pressed_and_replayed_from_c() {
    let expected = "ok records 5 nodes 3 steps 1 peak 3 core 2\n\
                    3 slots: 0 at 0, peak 3\n\
                    2 slots: 15 at 2, peak 0\n";
    assert_eq!(run("first"), expected);
}

#[test]
fn the_headers_slot_is_the_harness_slot() {
    let ours = [
        (size_of::<Slot>(), align_of::<Slot>()),
        (offset_of!(Slot, used), size_of::<u32>()),
        (offset_of!(Slot, node), size_of::<u32>()),
        (offset_of!(Slot, positive), size_of::<[u64; 2]>()),
        (offset_of!(Slot, negative), size_of::<[u64; 2]>()),
    ];
    let ours: String = ours.iter().map(|(a, b)| format!("{a} {b}\n")).collect();
    assert_eq!(run("layout"), ours);
    assert_eq!(ours, "40 8\n0 4\n4 4\n8 16\n24 16\n");
}
