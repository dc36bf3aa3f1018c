//! The header, the documents, the exported code and this package say the same: the version, numbers, names, words, fields,
//! each call's reasons in their order, and which pictures are not covered.

use std::collections::BTreeSet;
use std::fmt::Debug;
use std::path::Path;
use steamgusset::{BINS_BYTES, Block, ChromaFormat, ENTRY_BYTES, Refusal, Rows, SET_BYTES, Sizes, State, ffi};

/// A text of the project.
fn text(file: &str) -> String {
    let path = Path::new(env!("CARGO_MANIFEST_DIR")).join("..").join(file);
    std::fs::read_to_string(&path).unwrap_or_else(|why| panic!("{}: {why}", path.display()))
}

fn header() -> String {
    text("include/steamgusset.h")
}

/// What stands between two words, the first time that the first one does.
fn between<'a>(text: &'a str, before: &str, after: &str) -> &'a str {
    let (_, rest) = text.split_once(before).unwrap_or_else(|| panic!("no {before:?}"));
    rest.split_once(after).unwrap_or_else(|| panic!("no {after:?} after {before:?}")).0
}

/// The names of an enum of the header and their numbers.
fn named(header: &str, name: &str) -> Vec<(String, u32)> {
    let lines = between(header, &format!("enum {name} {{"), "}").lines();
    let pairs = lines.filter_map(|line| line.split_once('='));
    let number = |text: &str| text.split([',', '/']).next().and_then(|number| number.trim().parse().ok());
    pairs.map(|(name, text)| (name.trim().into(), number(text).expect("a number"))).collect()
}

/// The header's names of the refusals and their numbers.
fn refusals(header: &str) -> Vec<(String, u32)> {
    named(header, "sg_refusal")
}

/// The words that `sg_reason` has for a name.
fn words<'a>(header: &'a str, name: &str) -> &'a str {
    between(header, &format!("case {name}: return \""), "\";")
}

/// The lines below a table's head in docs/CALLS.md, cut into cells.
fn rows(document: &str, head: &str) -> Vec<Vec<String>> {
    let (_, table) = document.split_once(head).unwrap_or_else(|| panic!("no table {head:?}"));
    let lines = table.lines().skip(2).take_while(|line| line.starts_with('|'));
    lines.map(|line| line.trim_matches('|').split('|').map(|cell| cell.trim().into()).collect()).collect()
}

/// `NotReady` as C says it: `SG_NOT_READY`.
fn in_c(refusal: Refusal) -> String {
    let letters = format!("{refusal:?}");
    letters.chars().fold("SG".into(), |name, letter| {
        let joint = if letter.is_uppercase() { "_" } else { "" };
        format!("{name}{joint}{}", letter.to_ascii_uppercase())
    })
}

#[test]
fn every_refusal_has_one_number_and_one_reason() {
    let (header, document) = (header(), text("docs/CALLS.md"));
    let accepted = ("SG_OK".to_string(), 0);
    let ours = Refusal::ALL.map(|refusal| (in_c(refusal), refusal.number()));
    assert_eq!(refusals(&header), [&[accepted], ours.as_slice()].concat());
    for (name, refusal) in ours.iter().map(|(name, _)| name).zip(Refusal::ALL) {
        assert_eq!(words(&header, name), refusal.reason());
    }
    let documented = rows(&document, "| No. | Refused because |");
    assert_eq!(
        documented,
        Refusal::ALL.map(|refusal| vec![refusal.number().to_string(), refusal.reason().to_string()])
    );
}

/// `Chroma422` as C says it: `SG_FORMAT_422`.
#[test]
fn every_format_has_one_number() {
    let in_c = |format: ChromaFormat| {
        let name = format!("{format:?}").to_ascii_uppercase();
        format!("SG_FORMAT_{}", name.strip_prefix("CHROMA").unwrap_or(&name))
    };
    let ours = ChromaFormat::ALL.map(|format| (in_c(format), u32::from(format)));
    assert_eq!(named(&header(), "sg_format"), ours);
}

/// The reasons of a call in docs/CALLS.md: "1; 2 marks" is 1 and 2.
fn documented_order(reasons: &str) -> Vec<u32> {
    let first_word = |reason: &str| reason.split_whitespace().next().and_then(|word| word.parse().ok());
    reasons.split(';').map(|reason| first_word(reason).unwrap_or_else(|| panic!("no number in {reasons:?}"))).collect()
}

/// The reasons that the comment above a function of the header lists.
fn listed_order(header: &str, function: &str) -> Vec<u32> {
    let (before, _) = header.split_once(&format!("\nuint32_t {function}(")).unwrap_or_else(|| panic!("no {function}"));
    let (_, list) = before.rsplit_once("Refused, in this order:").expect("a list of reasons");
    let names = list.lines().filter_map(|line| line.strip_prefix(" *   SG_")?.split_whitespace().next());
    let number =
        |name: &str| refusals(header).into_iter().find(|(known, _)| known[3..] == *name).map(|(_, number)| number);
    names.map(|name| number(name).unwrap_or_else(|| panic!("{function}: no refusal SG_{name}"))).collect()
}

/// `finished rows` as C says it: `sg_finished_rows`.
fn function_of(call: &str) -> String {
    format!("sg_{}", call.replace(' ', "_"))
}

/// The functions that the header declares.
struct Functions {
    refusing: BTreeSet<String>,
    /// Those that take nothing, as `sg_version`: they have nothing to refuse.
    idle: BTreeSet<String>,
}

fn functions(header: &str) -> Functions {
    let declared = header.lines().filter_map(|line| line.strip_prefix("uint32_t ")?.split_once('('));
    let (idle, refusing): (Vec<_>, Vec<_>) = declared.partition(|(_, takes)| *takes == "void);");
    let names = |list: Vec<(&str, &str)>| list.into_iter().map(|(name, _)| name.into()).collect();
    Functions { refusing: names(refusing), idle: names(idle) }
}

/// Each call of docs/CALLS.md and its reasons.
fn documented_calls(document: &str) -> Vec<(String, Vec<u32>)> {
    let six = rows(document, "| Call | Is lent, besides the state | Reasons, in order | An accepted call changes |");
    let two = rows(document, "| Call | Answers | Reasons, in order |");
    six.into_iter().chain(two).map(|row| (row[0].clone(), documented_order(&row[2]))).collect()
}

#[test]
fn every_call_lists_its_reasons_in_the_documents_order() {
    let (header, document) = (header(), text("docs/CALLS.md"));
    let calls = documented_calls(&document);
    assert_eq!(calls.iter().map(|(call, _)| function_of(call)).collect::<BTreeSet<_>>(), functions(&header).refusing);
    for (call, order) in calls {
        let function = function_of(&call);
        assert_eq!(listed_order(&header, &function), order, "{function}");
    }
}

#[test]
fn every_function_that_the_document_names_is_there() {
    let (header, document) = (header(), text("docs/CALLS.md"));
    let [calls, picture, stage] = ["calls", "picture", "stage"].map(|module| text(&format!("rust/src/{module}.rs")));
    let declared = |name: &str| match name.split_once("::") {
        None => header.contains(&format!("\nuint32_t {name}(")),
        Some(("calls", function)) => calls.contains(&format!("pub fn {function}(")),
        Some(("Picture", method)) => picture.contains(&format!("pub fn {method}(")),
        Some(("Stage", method)) => stage.contains(&format!("pub fn {method}(")),
        Some(_) => false,
    };
    let table = rows(&document, "| Call | C | Rust, on lent slices | Rust, a picture with its buffers |");
    let Functions { refusing, idle } = functions(&header);
    assert_eq!(table.iter().map(|row| function_of(&row[0])).collect::<BTreeSet<_>>(), refusing);
    assert!(idle.iter().all(|name| document.contains(&format!("`{name}"))), "{idle:?} are not named");
    for name in table.iter().flat_map(|row| &row[1..]).flat_map(|cell| cell.split(", ")) {
        assert!(declared(name.trim_matches('`')), "{name}");
    }
}

/// The names of a struct's fields in the header.
fn fields<'a>(header: &'a str, name: &str) -> Vec<&'a str> {
    let body = between(header, &format!("struct {name} {{"), "\n}");
    body.lines().filter_map(|line| line.split([';', '[']).next()?.split_whitespace().nth(1)).collect()
}

/// Those of the Rust struct, in their order.
fn fields_here(value: &impl Debug) -> Vec<String> {
    let printed = format!("{value:#?}");
    let own = printed.lines().filter_map(|line| line.strip_prefix("    ")).filter(|line| !line.starts_with([' ', ']']));
    own.filter_map(|line| line.split_once(':')).map(|(name, _)| name.into()).collect()
}

#[test]
fn what_crosses_has_the_same_fields_in_the_same_order() {
    let header = header();
    assert_eq!(fields(&header, "sg_state"), fields_here(&State::default()));
    assert_eq!(fields(&header, "sg_picture_sizes"), fields_here(&Sizes::default()));
    assert_eq!(fields(&header, "sg_block_place"), fields_here(&Block::default()));
    assert_eq!(fields(&header, "sg_rows"), fields_here(&Rows::default()));
}

/// The lines that lay out a state in the exported code: the place of each number, and how many they are.
fn places(code: &str) -> Vec<&str> {
    let list = between(code, "// ---- the layout of a state", "\n// ----");
    list.lines().filter(|line| line.starts_with("const ")).collect()
}

#[test]
fn the_exported_code_has_the_places_of_a_state_in_the_same_order() {
    let (header, code) = (header(), text("crates/steamgusset/src/lib.rt"));
    let fields = fields(&header, "sg_state");
    let names: Vec<String> = fields.iter().map(|field| field.to_uppercase()).chain(["NUMBERS".into()]).collect();
    let first = format!("const {}: usize = 0;", names[0]);
    let others = names.windows(2).map(|pair| format!("const {}: usize = {} + 1;", pair[1], pair[0]));
    assert_eq!(places(&code), [first].into_iter().chain(others).collect::<Vec<_>>());
    // The places are those of an array, so the fields are numbers of 32 bits.
    let numbers = between(&header, "struct sg_state {", "\n}").matches("    uint32_t ").count();
    assert_eq!((numbers, size_of::<State>()), (fields.len(), fields.len() * size_of::<u32>()));
}

/// The number that the header defines a name as, itself or by another name.
fn defined(header: &str, name: &str) -> usize {
    let value = between(header, &format!("#define {name} "), "\n");
    value.parse().unwrap_or_else(|_| defined(header, value))
}

#[test]
fn the_headers_lengths_are_ours() {
    let header = header();
    assert_eq!(defined(&header, "SG_SET_BYTES"), SET_BYTES);
    assert_eq!(defined(&header, "SG_ENTRY_BYTES"), ENTRY_BYTES);
    assert_eq!(defined(&header, "SG_BINS_BYTES"), BINS_BYTES);
}

#[test]
fn the_version_is_the_same_everywhere() {
    let (header, code) = (header(), text("crates/steamgusset/src/lib.rt"));
    let here = [("MAJOR", env!("CARGO_PKG_VERSION_MAJOR")), ("MINOR", env!("CARGO_PKG_VERSION_MINOR"))];
    for (part, number) in here {
        assert_eq!(defined(&header, &format!("SG_VERSION_{part}")).to_string(), number);
        assert_eq!(between(&code, &format!("const VERSION_{part}: u32 = "), ";"), number);
    }
    let [major, minor] = here.map(|(_, number)| number.parse::<u32>().expect("a number"));
    assert_eq!(between(&header, "#define SG_VERSION ", "\n"), "(SG_VERSION_MAJOR * 65536 + SG_VERSION_MINOR)");
    assert_eq!(ffi::sg_version(), major * 65536 + minor);
}

/// What a text says of the pictures that are not covered yet, without comment marks, code marks and line breaks.
fn limits(text: &str) -> String {
    let unmarked = |line: &str| line.trim_start().trim_start_matches(['/', '!', '*']).replace('`', "");
    let words = text.lines().map(unmarked).collect::<Vec<_>>().join(" ");
    let words = words.split_whitespace().collect::<Vec<_>>().join(" ");
    between(&words, "has none of what is not covered yet: ", " comes out wrong.").into()
}

#[test]
fn the_limits_are_said_in_the_same_words_everywhere() {
    let said = limits(&header());
    assert!(said.starts_with("- "), "{said}");
    for file in ["README.md", "docs/CALLS.md", "rust/src/lib.rs"] {
        assert_eq!(limits(&text(file)), said, "{file}");
    }
}
