//! The declarations of src/raw.rs against those of include/meanderpeg.h: the same functions and structs with the same
//! names and types, in the same order; and the constants. Nothing else would notice a difference.

use std::collections::BTreeMap;

/// Names with their types: a function's parameters and, last and without a name, its answer; a struct's fields.
type Members = Vec<(String, String)>;

fn read(file: &str) -> String {
    let path = format!("{}/{file}", env!("CARGO_MANIFEST_DIR"));
    std::fs::read_to_string(path).expect("a file of the repository")
}

/// C without comments, without lines for the preprocessor and without what keeps C++ happy.
fn plain_c(text: &str) -> String {
    let parts = text.split("/*").enumerate();
    let code: String =
        parts.map(|(i, part)| if i == 0 { part } else { part.split_once("*/").expect("an end").1 }).collect();
    let lines = code.lines().filter(|line| !line.trim_start().starts_with('#') && !line.contains("extern \"C\""));
    lines.collect::<Vec<_>>().join("\n")
}

/// What stands at the top level: the text before the braces, if there are any, and the text in them.
fn statements(code: &str) -> Vec<(String, String)> {
    let (mut found, mut head, mut body, mut depth) = (vec![], String::new(), String::new(), 0);
    for letter in code.chars() {
        match (letter, depth) {
            ('{', _) => depth += 1,
            ('}', 1) if head.contains("inline") => {
                depth = 0;
                (head, body) = (String::new(), String::new());
            }
            ('}', _) => depth = usize::saturating_sub(depth, 1),
            (';', 0) => found.push((std::mem::take(&mut head), std::mem::take(&mut body))),
            (_, 0) => head.push(letter),
            _ => body.push(letter),
        }
    }
    found
}

/// `struct meanderpeg_directory_entry` is `DirectoryEntry` in src/raw.rs.
fn struct_name(c: &str) -> String {
    let words = c.trim_start_matches("meanderpeg_").split('_');
    words.map(|word| word[..1].to_uppercase() + &word[1..]).collect()
}

/// The name and the Rust type of a parameter, a field or, without a name, an answer.
fn member(c: &str, parameter: bool) -> (String, String) {
    let (declared, array) = c.split_once('[').map_or((c, None), |(d, a)| (d, Some(a.trim_end_matches(']'))));
    let spaced = declared.replace('*', " * ");
    let words: Vec<&str> = spaced.split_whitespace().filter(|word| !word.starts_with("MEANDERPEG_")).collect();
    let at = words.iter().position(|&word| word != "const").expect("a type");
    let (base, rest) = match words[at] {
        "uint8_t" => ("u8".to_string(), at + 1),
        "uint32_t" => ("u32".to_string(), at + 1),
        "uint64_t" => ("u64".to_string(), at + 1),
        "size_t" => ("usize".to_string(), at + 1),
        "void" => ("c_void".to_string(), at + 1),
        "struct" => (struct_name(words[at + 1]), at + 2),
        other => panic!("a type unknown here: {other} in {c}"),
    };
    let pointer = words.contains(&"*") || (parameter && array.is_some());
    let name = words[rest..].iter().filter(|&&word| word != "*").map(|word| word.to_string()).collect();
    match (pointer, words.contains(&"const"), array) {
        (true, true, _) => (name, format!("*const {base}")),
        (true, false, _) => (name, format!("*mut {base}")),
        (false, _, Some(count)) => (name, format!("[{base}; {count}]")),
        (false, _, None) => (name, base),
    }
}

fn functions_of_header(code: &str) -> BTreeMap<String, Members> {
    let mut found = BTreeMap::new();
    for (head, _) in statements(code).into_iter().filter(|(_, body)| body.is_empty()) {
        let Some((before, parameters)) = head.split_once('(') else { continue };
        let (answer, name) = before.trim().rsplit_once([' ', '\n']).expect("a type and a name");
        let (parameters, _) = parameters.split_once(')').expect("an end");
        let mut members: Members = parameters.split(',').map(|p| member(p, true)).collect();
        members.push(member(answer, false));
        found.insert(name.to_string(), members);
    }
    found
}

fn structs_of_header(code: &str) -> BTreeMap<String, Members> {
    let structs = statements(code).into_iter().filter_map(|(head, body)| {
        let name = struct_name(head.trim().strip_prefix("struct ")?.trim());
        let fields = body.split(';').filter(|field| !field.trim().is_empty());
        (!body.is_empty()).then(|| (name, fields.map(|field| member(field, false)).collect()))
    });
    structs.collect()
}

/// `name: type` of each member, parted by commas outside of brackets.
fn rust_members(text: &str) -> Members {
    let named = text.split(", ").flat_map(|part| part.split(",\n")).filter_map(|part| part.split_once(':'));
    let clean = |text: &str| text.trim().trim_start_matches("pub ").trim_end_matches(',').to_string();
    named.map(|(name, kind)| (clean(name), clean(kind))).collect()
}

fn functions_of_bindings(text: &str) -> BTreeMap<String, Members> {
    let block =
        text.split_once("    declare! {").expect("the declarations").1.split_once("\n    }").expect("their end").0;
    let mut found = BTreeMap::new();
    for statement in block.split(';').filter(|s| s.contains("fn ")) {
        let (head, rest) = statement.split_once('(').expect("parameters");
        let (parameters, answer) = rest.split_once(") -> ").expect("an answer");
        let mut members = rust_members(parameters);
        members.push((String::new(), answer.trim().to_string()));
        found.insert(head.trim().trim_start_matches("pub fn ").to_string(), members);
    }
    found
}

fn structs_of_bindings(text: &str) -> BTreeMap<String, Members> {
    let lines = text.lines().filter(|line| !line.trim_start().starts_with("///"));
    let code = lines.collect::<Vec<_>>().join("\n");
    let structs = code.split("#[repr(C)]\npub struct ").skip(1).map(|part| {
        let (name, rest) = part.split_once(" {").expect("fields");
        (name.to_string(), rest.split_once('}').expect("an end").0)
    });
    structs.map(|(name, fields)| (name, rust_members(fields))).collect()
}

#[test]
fn bindings_are_those_of_the_header() {
    let (header, bindings) = (plain_c(&read("../include/meanderpeg.h")), read("src/raw.rs"));
    let functions = functions_of_header(&header);
    assert_eq!(functions_of_bindings(&bindings), functions);
    assert_eq!(functions.len(), 24, "functions");
    let structs = structs_of_header(&header);
    assert_eq!(structs_of_bindings(&bindings), structs);
    assert_eq!(structs.len(), 9, "structs");
    assert_eq!(bindings.matches("pub struct ").count(), 9, "each struct has C's layout");
}

#[test]
fn constants_are_those_of_the_header() {
    let header = read("../include/meanderpeg.h");
    let after = |words: &str| header.split_once(words).unwrap_or_else(|| panic!("no {words}")).1;
    let number = |name: &str| -> usize {
        let digits = after(name).trim_start_matches([' ', '=']);
        digits.split(|c: char| !c.is_ascii_digit()).next().and_then(|d| d.parse().ok()).expect("a number")
    };
    assert_eq!(number("MEANDERPEG_AREA_BYTES ="), meanderpeg::AREA_BYTES);
    assert_eq!(number("MEANDERPEG_STORE_NUMBERS ="), meanderpeg::STORE_NUMBERS);
    assert_eq!(number("MEANDERPEG_REPORT_BYTES ="), meanderpeg::REPORT_BYTES);
    assert_eq!(number("MEANDERPEG_GUID_BYTES ="), std::mem::size_of::<meanderpeg::Guid>());
    assert_eq!(number("MEANDERPEG_DIRECTORY_HEADER_BYTES ="), meanderpeg::DIRECTORY_HEADER_BYTES);
    assert_eq!(number("MEANDERPEG_DIRECTORY_ENTRY_BYTES ="), meanderpeg::DIRECTORY_ENTRY_BYTES);
    assert_eq!(number("MEANDERPEG_DIRECTORY_BYTES ="), meanderpeg::DIRECTORY_BYTES);
    assert_eq!(4 * number("MEANDERPEG_DIRECTORY_IMAGE_WORDS ="), std::mem::size_of::<meanderpeg::ImageWords>());
    assert_eq!(number("MEANDERPEG_CAPSULE_ITEMS ="), meanderpeg::CAPSULE_ITEMS);
    assert_eq!(number("MEANDERPEG_DRIVER_ENTRY_BYTES ="), meanderpeg::DRIVER_ENTRY_BYTES);
    assert_eq!(number("MEANDERPEG_PAYLOAD_ENTRY_BYTES ="), meanderpeg::PAYLOAD_ENTRY_BYTES);
    assert_eq!(meanderpeg::DRIVER_ENTRY_BYTES, std::mem::size_of::<meanderpeg::DriverEntry>());
    assert_eq!(meanderpeg::PAYLOAD_ENTRY_BYTES, std::mem::size_of::<meanderpeg::PayloadEntry>());
    let parts =
        ["MAJOR", "MINOR", "PATCH"].map(|part| number(&format!("#define MEANDERPEG_VERSION_{part}")).to_string());
    assert_eq!(parts.join("."), env!("CARGO_PKG_VERSION"));
    assert!(after("#define MEANDERPEG_VERSION \"").starts_with(&format!("{}\"", env!("CARGO_PKG_VERSION"))));
}
