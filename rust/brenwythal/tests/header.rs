//! The names of the headers and of this crate are the same, with the same numbers, and the calls are declared as
//! the headers have them.
use brenwythal::*;

const HEADER: &str = include_str!("../../../crates/capi/brenwythal.h");
const CALLS: &str = include_str!("../src/calls.rs");
const PLAIN_HEADER: &str = include_str!("../../../crates/plaincapi/brenwythal_plain.h");
const PLAIN_CALLS: &str = include_str!("../src/plain/calls.rs");

/// `IllegalMemory(0)` is `ILLEGAL_MEMORY`.
fn shouted(variant: impl std::fmt::Debug) -> String {
    let text = format!("{variant:?}");
    let name = text.split('(').next().unwrap();
    let mut shouted = String::new();
    for (i, letter) in name.char_indices() {
        if i > 0 && letter.is_uppercase() {
            shouted.push('_');
        }
        shouted.push(letter.to_ascii_uppercase());
    }
    shouted
}

/// Every name of a header behind this prefix with its number, but for the include guard.
fn in_header(header: &str, prefix: &str) -> Vec<(String, usize)> {
    let code = header.split(&format!("#define {prefix}H\n")).nth(1).unwrap();
    let mut names = Vec::new();
    for line in code.lines() {
        let line = line.trim_start().trim_start_matches("#define ");
        if let Some(named) = line.strip_prefix(prefix) {
            let mut words = named.split([' ', ',', '=']).filter(|word| !word.is_empty());
            names.push((words.next().unwrap().to_string(), words.next().unwrap().parse().unwrap()));
        }
    }
    names
}

/// These places, the stops and so many refusals have the names and numbers of the header.
fn compare(places: &[(&str, usize)], refusals: usize, header: &str, prefix: &str) {
    let stops = [
        Stop::Limit,
        Stop::Trap(0),
        Stop::IllegalMemory(0),
        Stop::Misaligned(0),
        Stop::IllegalInstruction(0),
    ];
    let named = [
        Refusal::Bound,
        Refusal::Unsound,
        Refusal::Rights,
        Refusal::TooMuch,
        Refusal::Edition,
        Refusal::Format,
        Refusal::Room,
        Refusal::Mnemonic,
        Refusal::Operand,
        Refusal::Overflow,
    ];
    let mut ours: Vec<_> = places.iter().map(|&(name, number)| (name.to_string(), number)).collect();
    ours.extend(stops.iter().map(|&stop| (format!("STOP_{}", shouted(stop)), stop.number() as usize)));
    let refusal = |&refusal: &Refusal| (format!("REFUSAL_{}", shouted(refusal)), refusal.number() as usize);
    ours.extend(named[..refusals].iter().map(refusal));
    let mut theirs = in_header(header, prefix);
    ours.sort();
    theirs.sort();
    assert_eq!(ours, theirs);
}

#[test]
fn names_are_those_of_the_header() {
    let places = [
        ("PAGE", PAGE),
        ("RECORD", RECORD),
        ("PAGES", PAGES),
        ("FRAMES", FRAMES),
        ("ABASE", ABASE),
        ("PTL", PTL),
        ("PTO", PTO),
        ("SBASE", SBASE),
        ("USED", USED),
        ("HAND", HAND),
        ("HELD", HELD),
        ("GPR", GPR),
        ("DPC", DPC),
        ("NEXT", NEXT),
        ("MARKS", MARKS),
        ("RUN_ANSWER", RUN_ANSWER),
        ("STOP", STOP),
        ("DETAIL", DETAIL),
        ("FINISHED", FINISHED),
        ("LOADS", LOADS),
        ("COPIED", COPIED),
        ("IMAGE_ANSWER", IMAGE_ANSWER),
        ("IMAGE_PTL", IMAGE_PTL),
        ("IMAGE_START", IMAGE_START),
        ("IMAGE_FRAMES", IMAGE_FRAMES),
        ("ASSEMBLE_ANSWER", ASSEMBLE_ANSWER),
        ("ASSEMBLE_LENGTH", ASSEMBLE_LENGTH),
        ("ASSEMBLE_LINE", ASSEMBLE_LINE),
        ("ASSEMBLE_COLUMN", ASSEMBLE_COLUMN),
        ("LIST_ANSWER", LIST_ANSWER),
        ("LIST_LENGTH", LIST_LENGTH),
    ];
    compare(&places, 10, HEADER, "BRENWYTHAL_");
}

#[cfg(feature = "plain")]
#[test]
fn names_are_those_of_the_plain_header() {
    let places = [
        ("PAGE", plain::PAGE),
        ("RECORD", plain::RECORD),
        ("PTL", plain::PTL),
        ("GPR", plain::GPR),
        ("DPC", plain::DPC),
        ("NEXT", plain::NEXT),
        ("RUN_ANSWER", plain::RUN_ANSWER),
        ("STOP", plain::STOP),
        ("DETAIL", plain::DETAIL),
        ("FINISHED", plain::FINISHED),
        ("IMAGE_ANSWER", plain::IMAGE_ANSWER),
        ("IMAGE_PTL", plain::IMAGE_PTL),
        ("IMAGE_START", plain::IMAGE_START),
        ("IMAGE_FRAMES", plain::IMAGE_FRAMES),
    ];
    compare(&places, 7, PLAIN_HEADER, "BRENWYTHAL_PLAIN_");
}

/// What stands between two words, with one blank for every row of blanks and newlines.
fn between<'t>(text: &'t str, begin: &str, end: &'t str) -> impl Iterator<Item = String> + 't {
    let parts: Vec<&str> = text.split(begin).skip(1).collect();
    parts.into_iter().map(move |part| {
        let part = part.split(end).next().unwrap();
        part.split_whitespace().collect::<Vec<_>>().join(" ")
    })
}

/// `const uint8_t *file` is `file: *const u8`.
fn in_rust(parameter: &str) -> String {
    let (kind, name) = parameter.rsplit_once(' ').unwrap();
    let (base, fixed) = match kind.strip_prefix("const ") {
        Some(base) => (base, "*const "),
        None => (kind, "*mut "),
    };
    let base = match base {
        "uint8_t" => "u8",
        "uint32_t" => "u32",
        "size_t" => "usize",
        other => panic!("{other}"),
    };
    match name.strip_prefix('*') {
        Some(name) => format!("{name}: {fixed}{base}"),
        None => format!("{name}: {base}"),
    }
}

/// Each call, its parameters and their types, one by one and in the header's order.
#[test]
fn calls_are_declared_as_in_the_headers() {
    for (header, calls, count) in [(HEADER, CALLS, 10), (PLAIN_HEADER, PLAIN_CALLS, 7)] {
        let theirs: Vec<String> = between(header, "\nuint32_t ", ");")
            .map(|call| {
                let (name, parameters) = call.split_once('(').unwrap();
                let parameters: Vec<String> = parameters.split(", ").map(in_rust).collect();
                format!("{name}({})", parameters.join(", "))
            })
            .collect();
        let ours: Vec<String> = between(calls, "        pub fn ", ") -> u32;")
            .map(|call| call.replace("( ", "(").trim_end_matches(',').to_string() + ")")
            .collect();
        assert_eq!(ours, theirs);
        assert_eq!(ours.len(), count);
    }
}
