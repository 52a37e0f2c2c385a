//! With the feature `flex`, links the scanners that flex generates, and with the feature
//! `before` the library of an earlier commit beside the one that is there now.

use std::env;
use std::path::Path;
use std::process::Command;

fn main() {
    println!("cargo::rerun-if-changed=build.rs");
    if env::var_os("CARGO_FEATURE_FLEX").is_some() {
        build_scanners();
    }
    if env::var_os("CARGO_FEATURE_BEFORE").is_some() {
        link_build("now", "../target/staticlib/libcobbletwill.a");
        link_build("before", "../target/before/libcobbletwill.a");
    }
}

/// A variable that cargo sets.
fn variable(name: &str) -> String {
    env::var(name).expect("cargo sets the variable")
}

/// Generates `flex/t1.l`'s scanner twice, with flex's usual tables and with its
/// fastest, compiles and links both. The parts are written to cargo's folder.
fn build_scanners() {
    let folder = variable("OUT_DIR");
    let part = |name: &str| format!("{folder}/{name}");
    let archive = part("libt1.a");
    for (name, tables) in [("usual", "-Cem"), ("fastest", "-Cfa")] {
        let (source, object) = (part(&format!("{name}.c")), part(&format!("{name}.o")));
        let prefix = format!("-P{name}");
        run("flex", &[tables, &prefix, "-o", &source, "flex/t1.l"]);
        let entry = format!("-Dt1_scan=t1_scan_{name}");
        run(
            "cc",
            &[
                "-O3", "-Wall", "-Wextra", &entry, "-c", &source, "-o", &object,
            ],
        );
        run("ar", &["rcs", &archive, &object]);
    }
    println!("cargo::rustc-link-search=native={folder}");
    println!("cargo::rustc-link-lib=static=t1");
    println!("cargo::rerun-if-changed=flex/t1.l");
}

/// Links a build of the library in four copies, each of which has its functions 16 bytes
/// further on within the processor's lines of 64 bytes: the place alone can make the same
/// machine code slower by a third. The names of a copy begin with the build's name and
/// the copy's number; the functions of the C library that it calls keep theirs.
fn link_build(name: &str, library: &str) {
    let is_there = Path::new(library).exists();
    assert!(is_there, "{library} is missing: see README.md");
    let folder = variable("OUT_DIR");
    for copy in 0..4 {
        let name = format!("{name}{copy}");
        let part = |ending: &str| format!("{folder}/{name}{ending}");
        let (script, object) = (part(".ld"), part(".o"));
        let archive = format!("{folder}/lib{name}.a");
        let text = format!(
            "SECTIONS {{ .text : {{ . = {}; *(.text .text.*) }} }}",
            16 * copy
        );
        std::fs::write(&script, text).expect("cargo's folder can be written to");
        let whole = [
            "-r",
            "-T",
            &script,
            "--whole-archive",
            library,
            "-o",
            &object,
        ];
        run("ld", &whole);
        let prefix = format!("--prefix-symbols={name}_");
        let alignment = "--set-section-alignment=.text=64";
        run("objcopy", &[&prefix, alignment, &object]);
        for called in ["memcpy", "memset"] {
            let name = format!("--redefine-sym={name}_{called}={called}");
            run("objcopy", &[&name, &object]);
        }
        run("ar", &["rcs", &archive, &object]);
        println!("cargo::rustc-link-lib=static={name}");
    }
    println!("cargo::rustc-link-search=native={folder}");
    println!("cargo::rerun-if-changed={library}");
}

/// Runs a program, which must succeed.
fn run(program: &str, arguments: &[&str]) {
    let status = Command::new(program).args(arguments).status();
    let status = status.unwrap_or_else(|error| panic!("{program}: {error}"));
    assert!(status.success(), "{program} {arguments:?}: {status}");
}
