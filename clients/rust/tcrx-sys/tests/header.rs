//! Compares the declarations with the headers. A C program prints the size of each record, the place and size of each
//! field, and each number. tools/c_interface --check detects anything in a header that isn't declared.

use std::fmt::Write;
use std::path::PathBuf;
use std::process::Command;
use std::{env, fs};
use tcrx_sys::{API_VERSION, HOLDS_NONE, LAYOUTS, NUMBERS};

fn folder_of_header() -> PathBuf {
    PathBuf::from(env!("CARGO_MANIFEST_DIR")).join("../../../dist")
}

type Layouts = [(&'static str, usize, &'static [(&'static str, usize, usize)])];
type Numbers = [(&'static str, u32)];

/// Returns the output of a C program about a header: the size of each record with the places and sizes of its fields,
/// and the number of each name.
fn said_in_c(header: &str, layouts: &Layouts, numbers: &Numbers) -> String {
    let mut lines = format!("#include \"{header}\"\n#include <stdio.h>\nint main(void) {{\n");
    for (record, _, fields) in layouts {
        writeln!(lines, "printf(\"{record} %zu\", sizeof({record}));").expect("a string has room");
        for (field, _, _) in *fields {
            writeln!(lines, "printf(\" {field} %zu %zu\", offsetof({record}, {field}), sizeof((({record} *)0)->{field}));")
                .expect("a string has room");
        }
        lines.push_str("printf(\"\\n\");\n");
    }
    for (name, _) in numbers {
        writeln!(lines, "printf(\"{name} %u\\n\", (unsigned)TCRX_{name});").expect("a string has room");
    }
    lines.push_str("printf(\"version %u\\n\", (unsigned)TCRX_API_VERSION);\nreturn 0;\n}\n");
    let folder = PathBuf::from(env!("CARGO_TARGET_TMPDIR"));
    let (source, program) = (folder.join(format!("{header}.c")), folder.join(format!("{header}.out")));
    fs::write(&source, lines).expect("the source");
    let compiler = env::var_os("CC").unwrap_or_else(|| "cc".into());
    let compiled = Command::new(compiler).arg("-I").arg(folder_of_header()).arg(&source).arg("-o").arg(&program).status();
    assert!(compiled.expect("a C compiler").success());
    String::from_utf8(Command::new(&program).output().expect("the program").stdout).expect("ASCII")
}

fn said_here(layouts: &Layouts, numbers: &Numbers) -> String {
    let mut lines = String::new();
    for (record, size, fields) in layouts {
        write!(lines, "{record} {size}").expect("a string has room");
        for (field, place, octets) in *fields {
            write!(lines, " {field} {place} {octets}").expect("a string has room");
        }
        lines.push('\n');
    }
    for (name, number) in numbers {
        writeln!(lines, "{name} {number}").expect("a string has room");
    }
    lines + &format!("version {API_VERSION}\n")
}

#[test]
fn records_and_numbers_are_those_of_c() {
    assert_eq!(said_here(LAYOUTS, NUMBERS), said_in_c("tcrx.h", LAYOUTS, NUMBERS));
    assert!(HOLDS_NONE.held == 0 && HOLDS_NONE.place.is_null());
}

#[cfg(feature = "lines")]
#[test]
fn records_and_numbers_of_lines_are_those_of_c() {
    use tcrx_sys::lines::{HOLDS_NONE, LAYOUTS, NUMBERS};
    assert_eq!(said_here(LAYOUTS, NUMBERS), said_in_c("tcrx_lines.h", LAYOUTS, NUMBERS));
    assert!(HOLDS_NONE.held == 0 && HOLDS_NONE.place.is_null());
}
