//! What this crate declares against the header, `clsm.h`: all of it, in the header's order.
use cupolanettle_sys as declared;
use std::ffi::CStr;
use std::io::Write;
use std::mem::{align_of, offset_of, size_of};
use std::process::{Command, Stdio};

const HEADER: &str = include_str!("../../../clsm.h");
const DECLARED: &str = include_str!("../src/lib.rs");

/// The header's types, and what Rust has for them.
const TYPES: [(&str, &str); 7] = [
    ("bool", "bool"),
    ("char", "c_char"),
    ("int", "c_int"),
    ("int64_t", "i64"),
    ("size_t", "usize"),
    ("uint64_t", "u64"),
    ("unsigned", "c_uint"),
];

// ---- the header

/// The header's code, without comments.
fn header() -> String {
    let mut code = String::new();
    for part in HEADER.split("/*") {
        code += part.split_once("*/").map_or(part, |(_, behind)| behind);
    }
    code
}

/// A name as Rust has it: `clsm_page_end` is `PageEnd`.
fn camel(name: &str) -> String {
    let words = name.trim_start_matches("clsm_").split('_');
    words.map(|word| word[..1].to_uppercase() + &word[1..]).collect()
}

/// A type without its pointers, in Rust.
fn type_named(name: &str) -> String {
    let found = TYPES.iter().find(|(in_c, _)| *in_c == name);
    found.map_or_else(|| camel(name), |(_, in_rust)| (*in_rust).to_owned())
}

/// A type and a name, such as `const clsm_row *rows`, in Rust: `*const Row` and `rows`.
fn typed(written: &str) -> (String, String) {
    let name = written.rsplit([' ', '*']).next().unwrap();
    let of = written[..written.len() - name.len()].trim();
    let base = of.trim_start_matches("const ").split([' ', '*']).next().unwrap();
    let inner = if of.starts_with("const ") { "*const " } else { "*mut " };
    let pointers = match of.matches('*').count() {
        0 => String::new(),
        count => "*mut ".repeat(count - 1) + inner,
    };
    (pointers + &type_named(base), name.to_owned())
}

/// The calls, as Rust declares them.
fn calls_of_header() -> Vec<String> {
    let code = header();
    let statements =
        code.split(';').map(|text| text.split_whitespace().collect::<Vec<_>>().join(" "));
    let calls = statements.filter(|text| text.contains("clsm_") && text.ends_with(')'));
    calls.map(|call| call_in_rust(&call)).collect()
}

fn call_in_rust(call: &str) -> String {
    let (head, rest) = call.split_once('(').unwrap();
    let (result, name) = typed(head.rsplit('}').next().unwrap().trim());
    let parameters = rest.trim_end_matches(')').split(", ").filter(|part| *part != "void");
    let parameters: Vec<_> = parameters
        .map(|part| {
            let (of, name) = typed(part);
            format!("{name}: {of}")
        })
        .collect();
    let result = if result == "Void" { String::new() } else { format!(" -> {result}") };
    format!("fn {name}({}){result}", parameters.join(", "))
}

/// The structures, as Rust declares them, with their fields: name and type.
fn structures_of_header() -> Vec<(String, Vec<String>)> {
    let code = header();
    let bodies = code.split("typedef struct {").skip(1);
    bodies
        .map(|body| {
            let (fields, behind) = body.split_once('}').unwrap();
            let name = behind.split(';').next().unwrap().trim();
            (camel(name), fields.split(';').flat_map(fields_in_rust).collect())
        })
        .collect()
}

/// The types of which the header tells a name alone, as Rust declares them.
fn handles_of_header() -> Vec<String> {
    let code = header();
    let names = code.lines().filter_map(|line| line.trim().strip_prefix("typedef struct clsm_"));
    names.map(|names| camel(names.split(' ').next().unwrap())).collect()
}

/// The structures, and of their fields the names alone.
fn without_types(structures: &[(String, Vec<String>)]) -> Vec<(String, Vec<String>)> {
    let names = |fields: &[String]| {
        fields.iter().map(|field| field.split(':').next().unwrap().to_owned()).collect()
    };
    structures.iter().map(|(name, fields)| (name.clone(), names(fields))).collect()
}

/// The fields of a line, such as `uint64_t length, words[8]`.
fn fields_in_rust(line: &str) -> Vec<String> {
    let Some((of, names)) = line.trim().split_once(' ') else {
        return Vec::new();
    };
    let field = |name: &str| match name.trim_end_matches(']').split_once('[') {
        Some((name, count)) => format!("{name}: [{}; {count}]", type_named(of)),
        None => format!("{name}: {}", type_named(of)),
    };
    names.split(", ").map(field).collect()
}

/// The constants, as Rust declares them: name and value.
fn constants_of_header() -> Vec<(String, String)> {
    let code = header();
    let mut found = Vec::new();
    for line in code.lines() {
        let written = match line.trim().strip_prefix("#define CLSM_") {
            Some(define) => define.split_once(' '),
            None => line.trim().strip_prefix("CLSM_").and_then(|code| code.split_once(" = ")),
        };
        let pair = written
            .map(|(name, value)| (name.to_owned(), value.trim_matches([',', ' ']).to_owned()));
        found.extend(pair);
    }
    found
}

// ---- what is declared

/// The declarations without comments, the blanks of each line as one.
fn declarations() -> String {
    let lines = DECLARED.lines().map(|line| line.split("//").next().unwrap());
    lines.flat_map(str::split_whitespace).collect::<Vec<_>>().join(" ")
}

fn calls_declared() -> Vec<String> {
    let code = declarations();
    let parts = code.split_once("extern \"C\" {").unwrap().1.split(';');
    parts.filter_map(|part| Some(part[part.find("fn ")?..].to_owned())).collect()
}

fn structures_declared() -> Vec<(String, Vec<String>)> {
    let code = declarations();
    let bodies = code.split("pub struct ").skip(1).map(|body| body.split_once(" { ").unwrap());
    let public = bodies.filter(|(_, body)| body.starts_with("pub "));
    public
        .map(|(name, body)| {
            let fields = body.split('}').next().unwrap().split("pub ").skip(1);
            (
                name.to_owned(),
                fields.map(|field| field.trim_matches([',', ' ']).to_owned()).collect(),
            )
        })
        .collect()
}

fn handles_declared() -> Vec<String> {
    let code = declarations();
    let bodies = code.split("#[repr(C)] pub struct ").skip(1);
    let parts = bodies.map(|body| body.split_once(" { ").unwrap());
    let hidden = parts.filter(|(_, body)| body.starts_with("_own: [u8; 0],"));
    hidden.map(|(name, _)| name.to_owned()).collect()
}

fn constants_declared() -> Vec<(String, String)> {
    let code = declarations();
    let parts = code.split("pub const ").skip(1).map(|part| part.split(';').next().unwrap());
    parts
        .map(|part| {
            let (name, rest) = part.split_once(':').unwrap();
            (name.to_owned(), rest.split_once("= ").unwrap().1.to_owned())
        })
        .collect()
}

// ---- layouts

/// A structure's name in C, its size and alignment in Rust, and its fields with their offsets.
struct Layout {
    in_c: &'static str,
    size: usize,
    align: usize,
    fields: Vec<(&'static str, usize)>,
}

/// The layout of a structure of Rust with these fields.
macro_rules! layout {
    ($in_c:ident, $of:ident, $($field:ident),*) => {
        Layout {
            in_c: stringify!($in_c),
            size: size_of::<declared::$of>(),
            align: align_of::<declared::$of>(),
            fields: vec![$((stringify!($field), offset_of!(declared::$of, $field))),*],
        }
    };
}

#[rustfmt::skip]
fn layouts() -> [Layout; 7] {
    [
        layout!(clsm_value, Value, length, words),
        layout!(clsm_row, Row, key, value),
        layout!(clsm_changed, Changed, before, after),
        layout!(clsm_page_end, PageEnd, rows, next, more),
        layout!(clsm_range_count, RangeCount, first, last, keys),
        layout!(clsm_options, Options, keys, epoch, patience, merge, versions, wait, zero),
        layout!(clsm_statistics, Statistics,
            bytes, callers, snapshots, scans, oldest_time, oldest_age, clock, epoch_writes,
            level_zero, level_one, room_for_keys, room_for_versions, merges, last_merge,
            longest_merge, waits, longest_wait, run_full, versions_full, no_seat),
    ]
}

/// What a compiler of C has to find true of the layout.
fn assertions(layout: &Layout) -> String {
    let Layout { in_c, size, align, fields } = layout;
    let mut claims =
        vec![format!("sizeof({in_c}) == {size}"), format!("_Alignof({in_c}) == {align}")];
    claims.extend(fields.iter().map(|(name, at)| format!("offsetof({in_c}, {name}) == {at}")));
    format!("_Static_assert({}, \"\");\n", claims.join(" && "))
}

/// Asks a compiler of C whether these assertions hold of the header; or answers what it says.
fn compile(assertions: &str) -> Result<(), String> {
    let mut compiler = Command::new("cc")
        .args(["-std=c11", "-fsyntax-only", "-x", "c", "-"])
        .stdin(Stdio::piped())
        .stderr(Stdio::piped())
        .spawn()
        .expect("cc, with which Rust links, is there");
    let text = format!("{HEADER}\n{assertions}");
    compiler.stdin.take().unwrap().write_all(text.as_bytes()).unwrap();
    let ended = compiler.wait_with_output().unwrap();
    let told = String::from_utf8_lossy(&ended.stderr).into_owned();
    ended.status.success().then_some(()).ok_or(told)
}

// ---- tests

#[test]
fn constants() {
    let found = constants_of_header();
    assert!(found.len() > 33);
    assert_eq!(constants_declared(), found);
    assert_eq!(declared::VERSION, env!("CARGO_PKG_VERSION"));
}

#[test]
fn structures() {
    let found = structures_of_header();
    assert_eq!(structures_declared(), found);
    let laid_out = layouts().map(|layout| {
        let fields = layout.fields.iter().map(|(name, _)| (*name).to_owned()).collect();
        (camel(layout.in_c), fields)
    });
    assert_eq!(laid_out.to_vec(), without_types(&found));
}

#[test]
fn layouts_are_those_of_c() {
    let all: String = layouts().iter().map(assertions).collect();
    assert_eq!(compile(&all), Ok(()));
    let wrong = Layout { in_c: "clsm_value", size: 71, align: 8, fields: Vec::new() };
    assert!(compile(&assertions(&wrong)).is_err());
}

#[test]
fn handles() {
    let found = handles_of_header();
    assert!(found.len() > 4);
    assert_eq!(handles_declared(), found);
}

#[test]
fn calls() {
    let found = calls_of_header();
    assert!(found.len() > 40);
    assert_eq!(calls_declared(), found);
}

#[test]
#[allow(unsafe_code)]
fn the_library_that_is_linked() {
    // SAFETY: both answer texts that stay.
    let texts = unsafe {
        [declared::clsm_version(), declared::clsm_strerror(declared::NOT_FOUND)]
            .map(|text| CStr::from_ptr(text))
    };
    assert_eq!(texts[0].to_str(), Ok(declared::VERSION));
    assert_eq!(texts[1].to_str(), Ok("not found"));
}
