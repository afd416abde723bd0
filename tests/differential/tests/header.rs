//! Holds every constant of the C header against the independent implementation's
//! numbers, as a C compiler and a C++ compiler read it.

use independent::numbers::*;
use std::collections::BTreeMap;
use std::path::{Path, PathBuf};
use std::process::Command;

fn folder(of: &str) -> PathBuf {
    Path::new(env!("CARGO_MANIFEST_DIR")).join("../..").join(of)
}

/// The names that the header gives a value: `LOTEND_NAME = ..` and
/// `#define LOTEND_NAME ..`.
fn names_of(header: &str) -> Vec<String> {
    let mut names = Vec::new();
    for line in header.lines() {
        let line = line.trim_start();
        let defined = line.strip_prefix("#define ").unwrap_or(line);
        let Some(name) = defined.split_whitespace().next() else {
            continue;
        };
        if name.starts_with("LOTEND_") && name != "LOTEND_H" {
            names.push(name.to_string());
        }
    }
    names
}

/// What a program of that language prints for each name.
fn values(
    names: &[String],
    compiler: &str,
    standard: &str,
    extension: &str,
) -> BTreeMap<String, u64> {
    let scratch = Path::new(env!("CARGO_TARGET_TMPDIR")).join(extension);
    std::fs::create_dir_all(&scratch).unwrap();
    let source = scratch.join("constants").with_extension(extension);
    let prints: String = names
        .iter()
        .map(|name| format!("    printf(\"{name} %lld\\n\", (long long){name});\n"))
        .collect();
    let text = format!(
        "#include <stdio.h>\n#include \"lotend.h\"\n\
         int main(void)\n{{\n{prints}    return 0;\n}}\n"
    );
    std::fs::write(&source, text).unwrap();
    let program = scratch.join("constants");
    let compiled = Command::new(compiler)
        .args([standard, "-Wall", "-Wextra", "-Wpedantic", "-Werror", "-I"])
        .arg(folder("include"))
        .arg(&source)
        .arg("-o")
        .arg(&program)
        .status()
        .unwrap();
    assert!(compiled.success(), "{compiler} {standard}");
    let printed = String::from_utf8(Command::new(&program).output().unwrap().stdout).unwrap();
    let pair = |line: &str| {
        let (name, value) = line.split_once(' ').unwrap();
        (name.to_string(), value.parse().unwrap())
    };
    printed.lines().map(pair).collect()
}

/// `PREFIX_NAME` for each name of a module, with its number.
macro_rules! named {
    ($prefix:literal, $module:ident: $($name:ident)*) => {
        vec![$((format!("LOTEND_{}_{}", $prefix, stringify!($name)), $module::$name as u64)),*]
    };
}

fn expected() -> BTreeMap<String, u64> {
    [
        named!("MESSAGE", message: CANCEL COMPLETE CLOSE COMPENSATE FAILED EXITED NOT_COMPLETED
            EXIT COMPLETED FAIL CANNOT_COMPLETE CANCELED CLOSED COMPENSATED),
        named!("WAY", way: RECEIVED SENT),
        named!("STATE", state: ACTIVE CANCELING CANCELING_COMPLETING COMPLETING COMPLETED CLOSING
            COMPENSATING FAILING FAILING_COMPENSATING NOT_COMPLETING EXITING ENDED ENDED_FAILED
            ENDED_EXITED ENDED_NOT_COMPLETED ENDED_CANCELED ENDED_CLOSED ENDED_COMPENSATED),
        named!("ROLE", role: COORDINATOR PARTICIPANT),
        named!("TABLE", table: PLAIN SPLIT),
        named!("KIND", kind: ATOMIC MIXED),
        named!("DIRECTION", direction: NONE CLOSE COMPENSATE),
        named!("ACTION", action: NONE IGNORE REPLY FORGET),
        named!("REFUSED", refusal: NOTHING BOOK_SHORT LAYOUT ACTIVITY SEAT SEAT_DIRECTION
            EVENT_LIST ANSWER_AREA NO_SEAT EVENT WAY INVALID_STATE OUTCOME LINE_LONG LINE_SEAT
            LINE_WAY LINE_NAME LINE_ROOM TEXT_LONG),
        named!("MAX", limit: SEATS ACTIVITIES EVENTS BOOK_BYTES TEXT_BYTES LINE_BYTES),
        bytes(),
    ]
    .concat()
    .into_iter()
    .collect()
}

fn bytes() -> Vec<(String, u64)> {
    let sizes = named!("", size: HEADER ACTIVITY SEAT EVENT ANSWER);
    let name = |name: String| format!("{}_BYTES", name.replace("LOTEND__", "LOTEND_"));
    sizes
        .into_iter()
        .map(|(from, size)| (name(from), size))
        .collect()
}

#[test]
fn constants_are_the_papers() {
    let header = std::fs::read_to_string(folder("include/lotend.h")).unwrap();
    let names = names_of(&header);
    let languages = [("gcc", "-std=c99", "c"), ("g++", "-std=c++11", "cpp")];
    for (compiler, standard, extension) in languages {
        assert_eq!(
            values(&names, compiler, standard, extension),
            expected(),
            "{compiler}"
        );
    }
}
