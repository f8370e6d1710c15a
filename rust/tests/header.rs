//! Holds include/hyphaloom.h and the declarations of src/exported.rs to the exported calls of crate `board_c`: names, order and types of
//! all arguments, the fields of the structs, the constants, and the archive's symbols. The last tests show that it can fail.

use hyphaloom::config;
use std::collections::BTreeMap;
use std::path::Path;
use std::process::Command;

/// A file of the repository.
fn read(path: &str) -> String {
    let path = Path::new(env!("CARGO_MANIFEST_DIR")).join("..").join(path);
    std::fs::read_to_string(&path).unwrap_or_else(|err| panic!("{}: {err}", path.display()))
}

fn header() -> String {
    read("include/hyphaloom.h")
}

fn calls() -> String {
    read("crates/board_c/src/lib.rt")
}

fn words() -> String {
    read("crates/rows/src/lib.rt")
}

/// What stands between two marks, the first after `from`.
fn between<'t>(text: &'t str, from: &str, open: &str, close: &str) -> &'t str {
    let start = text.find(from).unwrap_or_else(|| panic!("no `{from}`"));
    let (_, rest) = text[start..].split_once(open).unwrap_or_else(|| panic!("no `{open}` after `{from}`"));
    rest.split_once(close).unwrap_or_else(|| panic!("no `{close}` after `{from}`")).0
}

/// One space between words.
fn spaced(text: &str) -> String {
    text.split_whitespace().collect::<Vec<_>>().join(" ")
}

// ---- the exported calls

/// An exported call: its name, its arguments (name and type) and the type of its answer.
struct Call {
    name: String,
    arguments: Vec<(String, String)>,
    answer: Option<String>,
}

fn exported(text: &str) -> Vec<Call> {
    text.split("pub extern \"C\" fn ").skip(1).map(call).collect()
}

fn call(text: &str) -> Call {
    let (name, rest) = text.split_once('(').expect("arguments");
    let (arguments, rest) = rest.split_once(')').expect("their end");
    let one = |a: &str| a.split_once(": ").map(|(name, ty)| (name.trim().into(), spaced(ty))).expect("name: type");
    let arguments = arguments.split(',').filter(|a| !a.trim().is_empty()).map(one).collect();
    let answer = rest.trim_start().strip_prefix("->").map(|r| r.split_whitespace().next().expect("a type").into());
    Call { name: name.into(), arguments, answer }
}

/// How a language writes types and arguments.
struct Language {
    scalar: fn(&str) -> &'static str,
    /// Type of what is pointed at, whether it is written to, name.
    pointer: fn(&str, bool, &str) -> String,
    value: fn(&str, &str) -> String,
    /// A row of so many numbers, as the thing pointed at by an argument of that name.
    row: fn(&str, &str) -> String,
    /// Answer, name, arguments.
    call: fn(Option<&str>, &str, &str) -> String,
}

const C: Language = Language {
    scalar: |ty| match ty {
        "u8" => "uint8_t",
        "u64" => "uint64_t",
        "usize" => "size_t",
        "bool" => "bool",
        other => panic!("no C type for `{other}`"),
    },
    pointer: |ty, written, name| format!("{}{ty} *{name}", if written { "" } else { "const " }),
    value: |ty, name| format!("{ty} {name}"),
    row: |_, name| format!("struct hyphaloom_{name}"),
    call: |answer, name, arguments| format!("{} {name}({arguments})", answer.unwrap_or("void")),
};

const RUST: Language = Language {
    scalar: |ty| ["u8", "u64", "usize", "bool"].into_iter().find(|known| *known == ty).expect("a known type"),
    pointer: |ty, written, name| format!("{name}: *{} {ty}", if written { "mut" } else { "const" }),
    value: |ty, name| format!("{name}: {ty}"),
    row: |row, _| row.into(),
    call: |answer, name, arguments| format!("fn {name}({arguments}){}", answer.map_or(String::new(), |ty| format!(" -> {ty}"))),
};

impl Language {
    /// One argument of an exported call: a slice is a pointer and a length, a row or a lent number one pointer.
    fn argument(&self, name: &str, ty: &str) -> Vec<String> {
        let (lent, written) = match (ty.strip_prefix("&mut "), ty.strip_prefix('&')) {
            (Some(lent), _) => (lent, true),
            (None, Some(lent)) => (lent, false),
            (None, None) => return vec![(self.value)((self.scalar)(ty), name)],
        };
        let Some(list) = lent.strip_prefix('[').and_then(|l| l.strip_suffix(']')) else {
            return vec![(self.pointer)((self.scalar)(lent), written, name)];
        };
        if list.contains(';') {
            return vec![(self.pointer)(&(self.row)(lent, name), written, name)];
        }
        let length = (self.value)((self.scalar)("usize"), &format!("{name}_len"));
        vec![(self.pointer)((self.scalar)(list), written, name), length]
    }

    fn declaration(&self, call: &Call) -> String {
        let arguments: Vec<_> = call.arguments.iter().flat_map(|(name, ty)| self.argument(name, ty)).collect();
        (self.call)(call.answer.as_deref().map(self.scalar), &call.name, &arguments.join(", "))
    }
}

/// Adds what differs, place by place.
fn compare(what: &str, found: &[String], wanted: &[String], differences: &mut Vec<String>) {
    for place in 0..found.len().max(wanted.len()) {
        let (found, wanted) = (found.get(place), wanted.get(place));
        if found != wanted {
            differences.push(format!("{what} {place}: {found:?}, wanted {wanted:?}"));
        }
    }
}

// ---- the header

/// The header without comments and lines for the preprocessor, with one space between words.
fn bare(header: &str) -> String {
    let mut code = String::new();
    for (n, piece) in header.split("/*").enumerate() {
        code += if n == 0 { piece } else { piece.split_once("*/").expect("a comment ends").1 };
    }
    let lines: Vec<_> = code.lines().filter(|line| !line.starts_with('#')).collect();
    spaced(&lines.join(" "))
}

fn declared(header: &str) -> Vec<String> {
    bare(header).split(';').filter(|piece| piece.contains('(')).map(|piece| piece.trim().into()).collect()
}

/// The fields of a struct, each with its type.
fn fields(header: &str, name: &str) -> Vec<String> {
    let code = bare(header);
    let body = between(&code, &format!("struct hyphaloom_{name} {{"), "{", "}");
    body.split(';').map(str::trim).filter(|f| !f.is_empty()).map(String::from).collect()
}

/// Every constant: `#define NAME number`, and `NAME = number` in an enum.
fn constants(header: &str) -> BTreeMap<String, u64> {
    let defined = header.lines().filter_map(|line| line.strip_prefix("#define ")?.split_once(' '));
    let code = bare(header).replace(['{', '}'], ",");
    let listed = code.split(',').filter_map(|piece| piece.split_once('='));
    let all = defined.chain(listed);
    all.map(|(name, number)| (name.trim().into(), number.trim().parse().expect("a number"))).collect()
}

// ---- what the structs and constants must be

/// The field that an entry of a row in crate `rows` is: `u64::from(self.src.0)` is `src`.
fn field_of(entry: &str) -> String {
    if entry.contains("cookie_no") {
        return "has_cookie".into();
    }
    let known = ["u64", "from", "self", "0", "as", "h", ""];
    let word = |c: char| !(c.is_alphanumeric() || c == '_');
    match entry.split(word).rfind(|w| !known.contains(w)).expect("a field") {
        "is_owner" => "owner".into(),
        other => other.into(),
    }
}

/// The row that a type of crate `rows` is told in: the first list in its `words`.
fn written_row(text: &str, row: &str) -> Vec<String> {
    let body = between(text, &format!("impl {row} {{"), "] {\n", "\n}\n");
    let (_, list) = body.split_once('[').expect("a row");
    let (list, _) = list.split_once(']').expect("its end");
    list.split(',').filter(|e| !e.trim().is_empty()).map(field_of).collect()
}

/// The row that `send_of` reads: `mtu: send_mtu_from(is_yes(w[6]), w[7]),` is `has_mtu`, `mtu`.
fn read_row(text: &str) -> Vec<String> {
    let body = between(text, "pub fn send_of(", "{\n", "\n}\n");
    let mut row = Vec::new();
    for (name, from) in body.lines().filter_map(|line| line.trim().split_once(": ")) {
        let places: Vec<usize> =
            from.split("w[").skip(1).map(|p| p.split_once(']').expect("w[..]").0.parse().expect("a place")).collect();
        assert_eq!(places, Vec::from_iter(row.len()..row.len() + places.len()), "{name}: {from}");
        match (places.len(), name) {
            (1, _) => {}
            (2, "tag") => row.push("tag_kind".into()),
            (2, _) => row.push(format!("has_{name}")),
            _ => panic!("{name}: {from}"),
        }
        row.push(name.into());
    }
    row
}

/// How many numbers a row has by its definition: `handle_words h = h.index ∷ h.issue ∷ []`. A send's is the sentence about it.
fn defined_length(name: &str) -> usize {
    let (path, definition) = match name {
        "send" => {
            let specs = read("crates/rows/specs/Words.antt");
            return between(&specs, "-- A send: ", ": ", ".").split(", ").count();
        }
        "fragmenter" => ("crates/fragment/specs/Answers.antt", "\nwords_of f ="),
        "message" => ("crates/handles/specs/Handles.antt", "\nmessage_words m ="),
        "handle" => ("crates/slot/specs/Handle.antt", "\nhandle_words h ="),
        _ => ("crates/updating/specs/Update.antt", "\nnext_words next ="),
    };
    between(&read(path), definition, "=", "[]").matches('∷').count()
}

fn rows() -> Vec<(&'static str, Vec<String>)> {
    let told = read("crates/rows/src/answers.rt");
    let rows = vec![
        ("send", read_row(&words())),
        ("fragmenter", written_row(&told, "Row<13> for Fragmenter")),
        ("message", written_row(&told, "Row<10> for Message")),
        ("handle", written_row(&told, "Row<2> for Option<ReceiveHandle>")),
        ("next", written_row(&told, "Row<2> for Next")),
    ];
    for (name, row) in &rows {
        assert_eq!(row.len(), defined_length(name), "code and definitions on a {name}");
    }
    rows
}

/// How many numbers a row has by every exported call that takes one.
fn row_length(name: &str) -> String {
    let calls = exported(&calls());
    let mut lengths = calls.iter().flat_map(|call| &call.arguments).filter(|(argument, _)| argument == name).map(|(_, ty)| {
        let row = ty.trim_start_matches('&').trim_start_matches("mut ");
        row.strip_prefix("[u64; ").and_then(|n| n.strip_suffix(']')).expect("a row").to_string()
    });
    let length = lengths.next().expect("a call takes it");
    assert!(lengths.all(|other| other == length), "{name}");
    length
}

/// The number after `mark` in a source file.
fn number(path: &str, mark: &str) -> u64 {
    let text = read(path);
    let (_, rest) = text.split_once(mark).unwrap_or_else(|| panic!("no `{mark}` in {path}"));
    let digits: String = rest.chars().take_while(|c| c.is_ascii_digit() || *c == ',').filter(|c| *c != ',').collect();
    digits.parse().unwrap_or_else(|_| panic!("no number after `{mark}` in {path}"))
}

/// `NoSpace` as `HYPHALOOM_NO_SPACE`.
fn constant_name(variant: &str) -> String {
    let mut name = String::from("HYPHALOOM");
    for c in variant.chars() {
        if c.is_uppercase() {
            name.push('_');
        }
        name.push(c.to_ascii_uppercase());
    }
    name
}

/// The refusals' numbers, from crate `mctp`.
fn refusals() -> Vec<(String, u64)> {
    let text = read("crates/mctp/src/lib.rt");
    let body = between(&text, "impl Error {", "match self {", "}");
    let arms = body.lines().filter_map(|line| line.trim().strip_prefix("Error::")?.split_once(" => "));
    arms.map(|(name, no)| (constant_name(name), no.trim_end_matches(',').parse().expect("a number"))).collect()
}

/// Every constant that the header must have, from the sources.
fn wanted_constants() -> BTreeMap<String, u64> {
    let (config, mctp) = ("crates/config/src/lib.rt", "crates/mctp/src/lib.rt");
    let (slots, body) = (number(config, "NUM_RECEIVE: usize = "), number(config, "MAX_PAYLOAD: usize = "));
    let mut wanted = BTreeMap::from(
        [
            ("STATE_BYTES", number("crates/board_c/src/lib.rt", "a buffer of at least ")),
            ("SLOTS", slots),
            ("BODY_BYTES", body),
            ("POOL_BYTES", slots * body),
            ("FLOWS", number(config, "FLOWS: usize = ")),
            ("MIN_MTU", number(config, "MIN_MTU: usize = ")),
            ("MAX_MTU", number(config, "MAX_MTU: usize = ")),
            ("REASSEMBLY_TIMEOUT_MILLIS", number(config, "REASSEMBLY_EXPIRY_TIMEOUT: u32 = ")),
            ("FLOW_TIMEOUT_MILLIS", number(config, "FLOW_EXPIRY_TIMEOUT: u32 = ")),
            ("INTERVAL_MILLIS", number(config, "TIMEOUT_INTERVAL: u32 = ")),
            ("EID_NULL", number(mctp, "NULL: Eid = Eid(")),
            ("EID_ANY", number(mctp, "ANY: Eid = Eid(")),
            ("OK", 0),
            ("TAG_FRESH", number("crates/rows/src/lib.rt", "match kind {\n        ")),
            ("TAG_OWNED", number("crates/rows/src/lib.rt", " => None,\n        ")),
            ("TAG_UNOWNED", number("crates/rows/src/lib.rt", "w[2] <= ")),
        ]
        .map(|(name, number)| (format!("HYPHALOOM_{name}"), number)),
    );
    wanted.extend(refusals());
    wanted
}

// ---- the comparison

/// Everything in which a header differs from the exported calls.
fn header_differences(header: &str) -> Vec<String> {
    let mut differences = Vec::new();
    let wanted: Vec<_> = exported(&calls()).iter().map(|call| C.declaration(call)).collect();
    compare("call", &declared(header), &wanted, &mut differences);
    for (name, row) in rows() {
        assert_eq!(row.len().to_string(), row_length(name), "rows and calls on a {name}");
        let wanted: Vec<_> = row.iter().map(|field| format!("uint64_t {field}")).collect();
        compare(&format!("struct hyphaloom_{name}, field"), &fields(header, name), &wanted, &mut differences);
    }
    let listed = |constants: BTreeMap<String, u64>| constants.iter().map(|(name, n)| format!("{name} {n}")).collect::<Vec<_>>();
    compare("constant", &listed(constants(header)), &listed(wanted_constants()), &mut differences);
    differences
}

/// Everything in which the declarations of exported.rs differ from them.
fn declaration_differences(declarations: &str) -> Vec<String> {
    let block = between(declarations, "extern \"C\" {", "{\n", "\n}\n");
    let one = |text: &str| format!("fn {}", spaced(text).trim_end_matches(';').replace("( ", "(").replace(", )", ")"));
    let found: Vec<_> = block.split("pub fn ").skip(1).map(one).collect();
    let wanted: Vec<_> = exported(&calls()).iter().map(|call| RUST.declaration(call)).collect();
    let mut differences = Vec::new();
    compare("call", &found, &wanted, &mut differences);
    differences
}

#[test]
fn seventeen_calls_are_exported() {
    assert_eq!(exported(&calls()).len(), 17);
    assert_eq!(calls().matches("#[unsafe(no_mangle)]").count(), 17);
}

/// Each public call of a crate's text by its name, with all that stands from its arguments to its body: the answer's type and the clauses.
fn promised(text: &str) -> Vec<(String, String)> {
    let one = |part: &str| {
        part.split_once('(').and_then(|(name, rest)| {
            rest.split_once("\n{\n").map(|(promise, _)| (name.to_string(), spaced(promise).replace(", )", ")")))
        })
    };
    text.split("fn hyphaloom_").skip(1).filter_map(one).collect()
}

#[test]
fn each_export_promises_what_its_call_does() {
    let exports = promised(&calls());
    assert_eq!(exports.len(), 17);
    assert_eq!(exports, promised(&read("crates/board/src/calls.rt")));
}

#[test]
fn the_header_is_that_of_the_exported_calls() {
    assert_eq!(header_differences(&header()), [""; 0]);
}

#[test]
fn the_exported_calls_are_declared() {
    assert_eq!(declaration_differences(&read("rust/src/exported.rs")), [""; 0]);
}

#[test]
fn the_wrapper_has_the_headers_constants() {
    let header = constants(&header());
    let ours = [
        ("STATE_BYTES", config::STATE_BYTES),
        ("SLOTS", config::NUM_RECEIVE),
        ("BODY_BYTES", config::MAX_PAYLOAD),
        ("POOL_BYTES", config::POOL_BYTES),
        ("FLOWS", config::FLOWS),
        ("MIN_MTU", config::MIN_MTU),
        ("MAX_MTU", config::MAX_MTU),
        ("REASSEMBLY_TIMEOUT_MILLIS", config::REASSEMBLY_EXPIRY_TIMEOUT as usize),
        ("FLOW_TIMEOUT_MILLIS", config::FLOW_EXPIRY_TIMEOUT as usize),
        ("INTERVAL_MILLIS", config::TIMEOUT_INTERVAL as usize),
    ];
    for (name, number) in ours {
        assert_eq!(header[&format!("HYPHALOOM_{name}")], number as u64, "{name}");
    }
}

#[test]
fn the_archive_has_the_exported_calls() {
    let archive = env!("HYPHALOOM_ARCHIVE");
    let output = Command::new("nm").args(["-g", archive]).output().unwrap_or_else(|err| panic!("nm: {err}"));
    assert!(output.status.success(), "{}", String::from_utf8_lossy(&output.stderr));
    let text = String::from_utf8(output.stdout).expect("text");
    let mut found: Vec<_> = text.lines().filter_map(|line| line.split_once(" T ")).map(|(_, name)| name.to_string()).collect();
    let mut wanted: Vec<_> = exported(&calls()).into_iter().map(|call| call.name).collect();
    found.sort();
    wanted.sort();
    assert_eq!(found, wanted);
}

// ---- it can fail

/// A copy with one edit.
fn edited(text: &str, from: &str, to: &str) -> String {
    assert_eq!(text.matches(from).count(), 1, "`{from}` is there once");
    text.replace(from, to)
}

#[test]
fn a_wrong_header_is_noticed() {
    let edits = [
        ("two arguments swapped", "uint8_t own, size_t mtu", "size_t mtu, uint8_t own"),
        ("two of one type swapped", "uint8_t source, uint8_t owner, uint8_t tag", "uint8_t owner, uint8_t source, uint8_t tag"),
        ("a length left out", "const uint8_t *payload, size_t payload_len, uint8_t *out", "const uint8_t *payload, uint8_t *out"),
        ("a narrower type", "uint64_t clock, struct hyphaloom_next *next", "uint32_t clock, struct hyphaloom_next *next"),
        ("a const left out", "const struct hyphaloom_send *send", "struct hyphaloom_send *send"),
        ("another answer", "bool hyphaloom_is_local_dest", "uint8_t hyphaloom_is_local_dest"),
        ("a state that is written", "hyphaloom_is_kept(const uint8_t *state", "hyphaloom_is_kept(uint8_t *state"),
        ("a call renamed", "hyphaloom_eid(", "hyphaloom_own_eid("),
        ("a call left out", "uint8_t hyphaloom_free_tags(const uint8_t *state, size_t state_len, uint8_t peer);", ""),
        ("two fields swapped", "    uint64_t at;\n    uint64_t len;", "    uint64_t len;\n    uint64_t at;"),
        ("a field left out", "    uint64_t seq;\n", ""),
        ("a narrower field", "    uint64_t millis;", "    uint32_t millis;"),
        ("another size", "HYPHALOOM_STATE_BYTES 2248", "HYPHALOOM_STATE_BYTES 2240"),
        ("another time", "HYPHALOOM_FLOW_TIMEOUT_MILLIS 6000", "HYPHALOOM_FLOW_TIMEOUT_MILLIS 60000"),
        ("another number", "HYPHALOOM_UNREACHABLE = 5", "HYPHALOOM_UNREACHABLE = 6"),
        ("another kind", "HYPHALOOM_TAG_OWNED = 1", "HYPHALOOM_TAG_OWNED = 2"),
    ];
    for (what, from, to) in edits {
        assert_ne!(header_differences(&edited(&header(), from, to)), [""; 0], "{what}");
    }
}

#[test]
fn a_wrong_declaration_is_noticed() {
    let declarations = read("rust/src/exported.rs");
    let edits = [
        ("own: u8, mtu: usize, clock: u64) -> u8;", "mtu: usize, own: u8, clock: u64) -> u8;"),
        ("message: *mut [u64; 10]", "message: *mut [u64; 9]"),
        ("send: *const [u64; 10]", "send: *mut [u64; 10]"),
        ("fn hyphaloom_is_kept(state: *const u8, state_len: usize) -> bool;", "fn hyphaloom_is_kept(state: *const u8) -> bool;"),
    ];
    for (from, to) in edits {
        assert_ne!(declaration_differences(&edited(&declarations, from, to)), [""; 0], "{from}");
    }
}
