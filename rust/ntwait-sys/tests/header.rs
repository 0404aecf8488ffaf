// SPDX-License-Identifier: MIT OR Apache-2.0
//! The declarations are those of c/nt.h: the same functions with as many arguments, and the same numbers.
use std::collections::BTreeMap;

const HEADER: &str = include_str!("../../../c/nt.h");
const OURS: &str = include_str!("../src/lib.rs");

/// The text without what stands between these marks.
fn without(text: &str, opens: &str, closes: &str) -> String {
    let mut parts = text.split(opens);
    let first = parts.next().unwrap_or("").to_string();
    parts.fold(first, |told, part| told + part.split_once(closes).map_or("", |(_, rest)| rest))
}

/// Each function whose name begins with nt_, right after one of these, with how many arguments it has.
fn functions(text: &str, words: &[&str]) -> BTreeMap<String, usize> {
    let mut found = BTreeMap::new();
    for word in words {
        for part in text.split(&format!("{word}nt_")).skip(1) {
            let (name, rest) = part.split_once('(').expect("a list of arguments");
            let list = rest.split_once(')').expect("its end").0.trim().trim_end_matches(',');
            let count = if list.is_empty() || list == "void" { 0 } else { list.split(',').count() };
            found.insert(format!("nt_{name}"), count);
        }
    }
    found
}

#[test]
fn each_function_of_the_header_is_declared() {
    let header = without(HEADER, "/*", "*/");
    let theirs = functions(&header, &["uint32_t ", "size_t ", "void ", "const char *", "struct nt *"]);
    assert!(theirs.len() > 50, "{theirs:?}");
    assert_eq!(functions(OURS, &["pub fn "]), theirs);
}

#[test]
fn each_number_of_the_header_is_declared() {
    let mut seen = 0;
    for line in HEADER.lines().filter_map(|it| it.strip_prefix("#define NT_")) {
        let Some((name, rest)) = line.split_once(' ') else { continue };
        let word = rest.split_whitespace().next().unwrap_or("").trim_end_matches('u');
        if name.contains('(') || !word.starts_with(|it: char| it.is_ascii_digit()) {
            continue;
        }
        assert!(OURS.contains(&format!("pub const NT_{name}: u32 = {word};")), "NT_{name} is {word}");
        seen += 1;
    }
    assert!(seen > 25, "{seen}");
    assert!(HEADER.contains("#define NT_GREATEST_MOMENT (UINT64_C(1) << 62)"));
}
