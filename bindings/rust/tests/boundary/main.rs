//! Compares the header with its version, and this crate's structs and functions with the header.
mod header;

use header::{declarations, Declaration};
use nobyaluk::{
    Ended, Filled, Lanes, Loaded, Longest, Many, Progress, Reading, Released, Road, Row, Start,
    State, Stepped, Study, Tallied, Wanted, Weighed, Weights, Written,
};
use std::fs;
use std::io::Write;
use std::mem::{offset_of, size_of};
use std::path::Path;
use std::process::{Command, Stdio};

const HEADER: &str = include_str!("../../../c/nobyaluk.h");
/// Number, declaration, digest.
const VERSIONS: &str = include_str!("../../../c/versions.tsv");
const RAW: &str = include_str!("../../src/raw.rs");

const CHANGED: &str = "A caller that was built before would misread the library. Raise the number: NOBYALUK_VERSION in bindings/c/nobyaluk.h, \
VERSION in crates/exports/src/lib.rt with boundaryVersion in its specs, VERSION in bindings/rust/src/types.rs and in \
bindings/python/nobyaluk/library.py. Then add the header's lines, under the new number, to bindings/c/versions.tsv; this test prints them.";

const NEW: &str = "The header has declarations that bindings/c/versions.tsv has not under this number. One more leaves callers as they are; \
add:";

/// The faults of a header, compared with the table of its versions, in sentences.
fn faults(header: &str, versions: &str) -> Vec<String> {
    let Some(number) = header::number(header) else {
        return vec!["bindings/c/nobyaluk.h has no NOBYALUK_VERSION".into()];
    };
    let now = declarations(header);
    let now: Vec<&Declaration> = now
        .iter()
        .filter(|one| one.name != header::VERSION)
        .collect();
    let rows = versions
        .lines()
        .skip(1)
        .map(|line| line.split('\t').collect::<Vec<_>>());
    let rows: Vec<_> = rows.filter(|row| row[0] == number.to_string()).collect();
    let mut faults = vec![];
    for row in &rows {
        match now.iter().find(|one| one.name == row[1]) {
            Some(one) if one.digest() == row[2] => {}
            Some(_) => faults.push(format!(
                "{} is not what it was under number {number}. {CHANGED}",
                row[1]
            )),
            None => faults.push(format!(
                "{} was there under number {number} and is gone. {CHANGED}",
                row[1]
            )),
        }
    }
    let listed = |one: &Declaration| rows.iter().any(|row| row[1] == one.name);
    let line = |one: &&Declaration| format!("\n{number}\t{}\t{}", one.name, one.digest());
    let new: String = now.iter().filter(|one| !listed(one)).map(line).collect();
    if !new.is_empty() {
        faults.push(NEW.to_string() + &new);
    }
    faults
}

#[test]
fn the_header_is_what_its_number_says() {
    let faults = faults(HEADER, VERSIONS);
    assert!(faults.is_empty(), "{}", faults.join("\n"));
    assert_eq!(header::number(HEADER), Some(nobyaluk::VERSION));
    assert_eq!(nobyaluk::version(), nobyaluk::VERSION);
}

#[test]
fn a_change_needs_a_new_number() {
    let changed = |from: &str, to: &str| {
        assert!(HEADER.contains(from), "{from}");
        faults(&HEADER.replacen(from, to, 1), VERSIONS)
    };
    for (from, to, name) in [
        ("uint64_t done;", "uint32_t done;", "nobyaluk_state"),
        (
            "places[65], ramps[64]",
            "ramps[64], places[65]",
            "nobyaluk_weights",
        ),
        (
            "uint32_t seed, uint32_t peak",
            "uint64_t seed, uint32_t peak",
            "nobyaluk_load",
        ),
        (
            "NOBYALUK_ALINEA = 1",
            "NOBYALUK_ALINEA = 3",
            "NOBYALUK_ALINEA",
        ),
        ("= 25,", "= 35,", "NOBYALUK_REFUSAL_PEAK"),
    ] {
        let said = changed(from, to);
        let start = format!("{name} is not what it was under number");
        assert!(said.len() == 1 && said[0].starts_with(&start), "{said:?}");
    }
    let gone = changed("uint32_t nobyaluk_version(void);", "");
    assert!(gone.len() == 1 && gone[0].contains("is gone"), "{gone:?}");
    let more = changed(
        "uint32_t nobyaluk_version(void);",
        "uint32_t nobyaluk_version(void); void nobyaluk_more(void);",
    );
    assert!(
        more.len() == 1 && more[0].starts_with(NEW) && more[0].contains("\tnobyaluk_more\t"),
        "{more:?}"
    );
    let raised = changed("NOBYALUK_VERSION = ", "NOBYALUK_VERSION = 9");
    assert_eq!(raised[0].lines().count(), declarations(HEADER).len());
}

#[test]
fn comments_and_blanks_need_none() {
    let text = HEADER
        .replace("uint64_t done; ", "uint64_t /* of any */\n  done;\n")
        .replace("/* steps */", "");
    assert_ne!(text, HEADER);
    assert_eq!(faults(&text, VERSIONS), Vec::<String>::new());
}

fn size_of_field<T, F>(_: fn(&T) -> &F) -> usize {
    size_of::<F>()
}

/// Lines of a struct's size and of each field's offset and size.
macro_rules! layout {
    ($name:literal, $type:ty, $($field:ident)*) => {{
        let mut lines = vec![format!("{} {}", $name, size_of::<$type>())];
        $(lines.push(format!(
            "{}.{} {} {}",
            $name, stringify!($field), offset_of!($type, $field), size_of_field(|x: &$type| &x.$field)
        ));)*
        lines
    }};
}

#[rustfmt::skip]
fn rust_layout() -> Vec<String> {
    [
        layout!("nobyaluk_road", Road, n version seconds gate_capacity speed wave share ramp jam capacity),
        layout!("nobyaluk_state", State, done gate_time road_time ramp_time gate_queue gate_cumulative held queue cumulative),
        layout!("nobyaluk_start", Start, gate_queue held queue),
        layout!("nobyaluk_lanes", Lanes, built usable),
        layout!("nobyaluk_weights", Weights, places ramps),
        layout!("nobyaluk_reading", Reading, number place steps road state),
        layout!("nobyaluk_ended", Ended, number step place total present exits road state),
        layout!("nobyaluk_weighed", Weighed, weighted ended),
        layout!("nobyaluk_longest", Longest, gate waiting ramps ended),
        layout!("nobyaluk_tallied", Tallied, weighted longest),
        layout!("nobyaluk_progress", Progress, state releases entries),
        layout!("nobyaluk_filled", Filled, longest releases entries),
        layout!("nobyaluk_stepped", Stepped, number place state),
        layout!("nobyaluk_written", Written, number place count),
        layout!("nobyaluk_loaded", Loaded, number last),
        layout!("nobyaluk_wanted_answer", Wanted, number found),
        layout!("nobyaluk_released", Released, number place),
        layout!("nobyaluk_answer", Study, number step place gate_time road_time ramp_time total exits present gate waiting ramps),
        layout!("nobyaluk_many", Many, number place),
        layout!("nobyaluk_row_answer", Row, numbers),
    ].concat()
}

/// The same lines by a C compiler, for every struct of the header.
fn c_layout() -> Vec<String> {
    let mut program =
        String::from("#include <stdio.h>\n#include \"nobyaluk.h\"\nint main(void) {\n");
    for one in declarations(HEADER) {
        let name = &one.name;
        for (i, field) in one.fields().iter().enumerate() {
            if i == 0 {
                program += &format!("printf(\"{name} %zu\\n\", sizeof({name}));\n");
            }
            program += &format!("printf(\"{name}.{field} %zu %zu\\n\", offsetof({name}, {field}), sizeof((({name} *)0)->{field}));\n");
        }
    }
    program += "return 0; }\n";
    let folder = Path::new(env!("CARGO_MANIFEST_DIR")).join("../c");
    let made = Path::new(env!("CARGO_TARGET_TMPDIR")).join("layout");
    let mut compiler = Command::new("cc")
        .args([
            "-std=c11", "-Wall", "-Wextra", "-Werror", "-x", "c", "-", "-I",
        ])
        .arg(folder)
        .arg("-o")
        .arg(&made)
        .stdin(Stdio::piped())
        .spawn()
        .expect("cc, the C compiler");
    compiler
        .stdin
        .take()
        .unwrap()
        .write_all(program.as_bytes())
        .unwrap();
    assert!(compiler.wait().unwrap().success(), "cc refuses\n{program}");
    let said = Command::new(&made).output().unwrap().stdout;
    fs::remove_file(made).unwrap();
    String::from_utf8(said)
        .unwrap()
        .lines()
        .map(str::to_string)
        .collect()
}

#[test]
fn structs_lie_as_in_c() {
    assert_eq!(rust_layout(), c_layout());
}

/// A type of the header as src/raw.rs writes it.
fn in_rust(c: &str) -> String {
    if let Some(element) = c.strip_suffix('*') {
        return match element.trim().strip_prefix("const ") {
            Some(element) => format!("*const {}", in_rust(element)),
            None => format!("*mut {}", in_rust(element.trim())),
        };
    }
    match c {
        "uint8_t" => "u8",
        "uint16_t" => "u16",
        "uint32_t" => "u32",
        "uint64_t" => "u64",
        "double" => "f64",
        "nobyaluk_wanted_answer" => "Wanted",
        "nobyaluk_row_answer" => "Row",
        _ => {
            let name = c.strip_prefix("nobyaluk_").unwrap_or(c);
            return name[..1].to_uppercase() + &name[1..];
        }
    }
    .to_string()
}

/// The functions of src/raw.rs: name, types of the arguments, result. A count is u64 in C, and a grant's answer its number.
fn raw_functions() -> Vec<(String, Vec<String>, String)> {
    let as_c = |word: &str| {
        word.trim()
            .replace("usize", "u64")
            .replace("Granted", "u64")
    };
    let function = |text: &str| {
        let (head, result) = text.split_once("->").unwrap();
        let (name, arguments) = head
            .trim()
            .strip_suffix(')')
            .unwrap()
            .split_once('(')
            .unwrap();
        let arguments = arguments.split(',').filter_map(|one| one.split_once(':'));
        let types = arguments.map(|(_, kind)| as_c(kind)).collect();
        (name.to_string(), types, as_c(result))
    };
    let functions = RAW.split("pub fn ").skip(1);
    functions
        .map(|text| function(text.split(';').next().unwrap()))
        .collect()
}

#[test]
fn functions_take_what_they_take_in_c() {
    let in_c: Vec<_> = declarations(HEADER)
        .iter()
        .filter_map(|one| {
            let (result, arguments) = one.signature()?;
            let arguments = arguments.iter().map(|c| in_rust(c)).collect();
            Some((one.name.clone(), arguments, in_rust(result)))
        })
        .collect();
    assert_eq!(raw_functions(), in_c);
}

#[test]
fn every_function_is_called() {
    let calls = [
        include_str!("../../src/lent.rs"),
        include_str!("../../src/rules.rs"),
    ];
    let calls: String = calls.concat().split_whitespace().collect();
    for (name, ..) in raw_functions() {
        assert!(
            calls.contains(&format!("call!({name}(")),
            "{name} is out of reach"
        );
    }
}
