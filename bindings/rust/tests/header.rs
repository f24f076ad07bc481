//! That src/raw.rs, src/calls.rs and src/answer.rs say what include/petrizolu.h says: functions, structs and answers are read from both texts.
use std::collections::BTreeMap;

const HEADER: &str = include_str!("../../../include/petrizolu.h");
const RAW: &str = include_str!("../src/raw.rs");
const CALLS: &str = include_str!("../src/calls.rs");
const ANSWER: &str = include_str!("../src/answer.rs");
const LIB: &str = include_str!("../src/lib.rs");

/// Names with what is said of each.
type Said = BTreeMap<String, Vec<String>>;

fn words(text: &str) -> String {
    text.split_whitespace().collect::<Vec<_>>().join(" ")
}

/// The header without its comments, its lines of the preprocessor and the bracket around C++.
fn header() -> String {
    let mut text = String::new();
    for (at, part) in HEADER.split("/*").enumerate() {
        text += if at == 0 { part } else { part.split_once("*/").expect("a comment ends").1 };
    }
    text.lines().filter(|line| !line.starts_with('#') && !line.starts_with("extern")).collect::<Vec<_>>().join("\n")
}

fn rust_type(c: &str) -> String {
    let name = match c.trim_start_matches("const ") {
        "uint64_t" => "u64",
        "uint32_t" => "u32",
        "uint16_t" => "u16",
        "uint8_t" => "u8",
        "size_t" => "usize",
        "petrizolu_gate" => "GateState",
        "petrizolu_sets" => "SetsState",
        "petrizolu_eit" => "EitState",
        "petrizolu_section" => "Place",
        "petrizolu_filter" => "Filter",
        "petrizolu_failure" => "Failure",
        "petrizolu_streams" => "StreamsState",
        "petrizolu_entry" => "Entry",
        "petrizolu_listed" => "Listed",
        "petrizolu_difference" => "Difference",
        "petrizolu_compared" => "Compared",
        "petrizolu_held" => "HeldByOne",
        "petrizolu_log_settings" => "LogSettings",
        "petrizolu_log_record" => "LogRecord",
        other => panic!("not known: {other}"),
    };
    name.into()
}

/// `const uint64_t *keys` as `keys: *const u64`, `uint32_t tables[16]` as `tables: *mut [u32; 16]`.
fn rust_argument(c: &str) -> String {
    let (before, name) = c.rsplit_once([' ', '*']).expect("a type and a name");
    if let Some((name, count)) = name.trim_end_matches(']').split_once('[') {
        return format!("{name}: *mut [{}; {count}]", rust_type(before));
    }
    let kind = match before.trim_end_matches('*').trim() {
        kind if kind.len() == before.len() => rust_type(kind),
        kind if kind.starts_with("const ") => format!("*const {}", rust_type(kind)),
        kind => format!("*mut {}", rust_type(kind)),
    };
    format!("{name}: {kind}")
}

fn functions_of_the_header() -> Said {
    let mut all = Said::new();
    let text = header();
    for statement in text.split(';').map(words).filter(|s| s.contains("petrizolu_") && s.ends_with(')')) {
        let (head, arguments) = statement.trim_end_matches(')').split_once('(').expect("a function");
        let (result, name) = head.rsplit_once(' ').expect("a result");
        let mut said: Vec<String> = arguments.split(", ").map(rust_argument).collect();
        said.push(rust_type(result));
        all.insert(name.into(), said);
    }
    all
}

fn functions_of_raw() -> Said {
    let mut all = Said::new();
    for function in RAW.split("pub fn ").skip(1).map(words) {
        let (name, rest) = function.split_once('(').expect("a function");
        let (arguments, rest) = rest.split_once(')').expect("its arguments");
        let mut said: Vec<String> = arguments.split(',').map(words).filter(|argument| !argument.is_empty()).collect();
        said.push(rest.trim_start_matches(" -> ").split(';').next().expect("a result").into());
        all.insert(name.into(), said);
    }
    all
}

#[test]
fn functions() {
    assert_eq!(functions_of_raw(), functions_of_the_header());
    assert_eq!(functions_of_raw().len(), 38);
}

/// The fields between the braces after `from`, in order.
fn fields(text: &str, from: &str, field: impl Fn(&str) -> Option<String>) -> Vec<String> {
    let body = text.split_once(from).expect("the struct").1.split_once('}').expect("its end").0;
    body.split([';', ',']).map(words).filter_map(|line| field(&line)).collect()
}

#[test]
fn structs() {
    let pairs = [
        ("gate", "GateState", 64),
        ("sets", "SetsState", 64),
        ("eit", "EitState", 64),
        ("section", "Place", 64),
        ("filter", "Filter", 64),
        ("failure", "Failure", 64),
        ("streams", "StreamsState", 64),
        ("entry", "Entry", 32),
        ("listed", "Listed", 64),
        ("difference", "Difference", 32),
        ("compared", "Compared", 64),
        ("held", "HeldByOne", 64),
        ("log_settings", "LogSettings", 64),
        ("log_record", "LogRecord", 64),
    ];
    for (c, rust, bits) in pairs {
        let of_c = fields(&header(), &format!("typedef struct petrizolu_{c} {{"), |line| {
            Some(line.strip_prefix(&format!("uint{bits}_t "))?.into())
        });
        let of_rust = fields(CALLS, &format!("pub struct {rust} {{"), |line| {
            Some(line.strip_prefix("pub ")?.strip_suffix(&format!(": u{bits}"))?.into())
        });
        assert!(!of_c.is_empty());
        assert_eq!(of_c, of_rust, "{c}");
    }
}

#[test]
fn answers() {
    let of_c: Vec<String> = fields(&header(), "enum petrizolu_answer {", |line| Some(line.strip_prefix("PETRIZOLU_")?.into()));
    let constant = |line: &str| {
        let (name, number) = line.trim().strip_prefix("pub const ")?.split_once(": Self = Self(")?;
        Some(format!("{name} = {}", number.strip_suffix(");")?))
    };
    let of_rust: Vec<String> = ANSWER.lines().filter_map(constant).collect();
    assert_eq!(of_c, of_rust);
    assert_eq!(of_c.len(), 39);
}

/// Constants that both texts give as a plain number: the name and the number, without its type.
fn numbers(text: &str, before: &str, between: &str, after: char) -> BTreeMap<String, u64> {
    let number = |line: &str| {
        let (name, rest) = line.strip_prefix(before)?.split_once(between)?;
        let digits = rest.split(after).next()?.replace('_', "");
        Some((name.split(':').next()?.to_string(), digits.parse().ok()?))
    };
    text.lines().filter_map(number).collect()
}

#[test]
fn constants() {
    let of_c = numbers(HEADER, "#define PETRIZOLU_", " ", 'u');
    let of_rust = numbers(LIB, "pub const ", " = ", ';');
    let both: Vec<&String> = of_rust.keys().filter(|name| of_c.contains_key(*name)).collect();
    both.iter().for_each(|name| assert_eq!(of_c[*name], of_rust[*name], "{name}"));
    for name in [
        "INPUTS",
        "FOLLOW",
        "FOLLOW_SECTIONS",
        "WATCH_WORDS",
        "PAT_SLOTS",
        "PAT_CELLS",
        "WATCH_PAT_EVICTIONS",
        "HEAD_WORDS",
        "SLOT_WORDS",
        "ENTRY_WORDS",
        "EVENT",
        "DESCRIPTOR",
        "TRANSPORT_STREAM",
        "SERVICE",
        "NIT",
        "BAT",
        "SDT",
        "DIFFERENCE_WORDS",
        "MOST_DIFFERENCES",
        "OTHER_BYTES",
        "LOG_EMITTED",
        "LOG_BARE_SET",
        "LOG_WITH",
        "LOG_WITHOUT",
        "LOG_BEFORE",
        "MOST_LOG_BYTES",
        "LONGEST_LOGGED",
    ] {
        assert!(both.iter().any(|known| *known == name), "{name}");
    }
}
