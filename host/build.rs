//! Links the proved library, which `tools/staticlib` writes into the repository's `target/staticlib`, and makes two tables: the attribute
//! names, from the dictionary that Debian packages with pydicom, and the rules' sentences, from the source of the program `judge_one`. How
//! many rules there are comes from the header.

use std::fmt::Write;
use std::path::Path;

/// One entry a line: `    0x00080005: ('CS', '1-n', "Specific Character Set", '', 'SpecificCharacterSet'),`. Groups that repeat have an
/// `x` for each digit that may be any: `    '60xx0010': ...`.
const DICTIONARY: &str = "/usr/lib/python3/dist-packages/pydicom/_dicom_dict.py";

/// The digits of the tag and the name.
fn entry(line: &str) -> Option<(&str, &str)> {
    let (key, rest) = line.strip_prefix("    ")?.split_once(": (")?;
    let digits = key.trim_matches('\'').trim_start_matches("0x");
    let name = rest.split('"').nth(1)?;
    let fine =
        digits.len() == 8 && digits.bytes().all(|digit| digit == b'x' || digit.is_ascii_hexdigit()) && !name.is_empty();
    fine.then_some((digits, name))
}

fn number(digits: &str) -> u32 {
    u32::from_str_radix(digits, 16).expect("eight hexadecimal digits")
}

/// The source of two tables: names by tag in ascending order, and names by mask and tag for those that repeat.
fn tables(dictionary: &str) -> String {
    let (mut single, mut repeated) = (Vec::new(), Vec::new());
    for (digits, name) in dictionary.lines().filter_map(entry) {
        let tag = number(&digits.replace('x', "0"));
        let mask: String = digits.chars().map(|digit| if digit == 'x' { '0' } else { 'F' }).collect();
        match number(&mask) {
            u32::MAX => single.push((tag, name)),
            mask => repeated.push((mask, tag, name)),
        }
    }
    assert!(
        single.len() > 4000,
        "{DICTIONARY} no longer has the expected form: {} names were found in it",
        single.len()
    );
    single.sort_unstable();
    let mut source = format!("static SINGLE: [(u32, &str); {}] = [\n", single.len());
    for (tag, name) in &single {
        writeln!(source, "(0x{tag:08X}, {name:?}),").expect("a string takes it");
    }
    writeln!(source, "];\nstatic REPEATED: [(u32, u32, &str); {}] = [", repeated.len()).expect("a string takes it");
    for (mask, tag, name) in &repeated {
        writeln!(source, "(0x{mask:08X}, 0x{tag:08X}, {name:?}),").expect("a string takes it");
    }
    source.push_str("];\n");
    source
}

/// Where the rules' sentences stand, from the host's folder. Each is a line of a table: `    "Samples per Pixel (0028,0002) US must be 1.",`.
const SENTENCES: &str = "../crates/judge_one/src/sentence.rt";

/// The header, from the host's folder. It says how many rules there are: `#define XA_RULES 39`.
const HEADER: &str = "../include/luuxidgaan.h";

/// How many rules there are.
pub fn count(header: &str) -> Option<usize> {
    header.lines().find_map(|line| line.strip_prefix("#define XA_RULES "))?.trim().parse().ok()
}

/// The sentences of all rules in their order; or what is not as expected.
pub fn sentences(source: &str, rules: usize) -> Result<Vec<&str>, String> {
    let start = format!("\nconst SENTENCES: [&str; {rules}] = [\n");
    let table = source.split_once(&start).and_then(|(_, rest)| rest.split_once("\n];\n"));
    let Some((table, _)) = table else {
        return Err(format!("it has no table of {rules} sentences"));
    };
    let mut found = Vec::new();
    for (line, number) in table.lines().zip(1..) {
        let Some(text) = line.trim_start().strip_prefix('"').and_then(|text| text.strip_suffix("\",")) else {
            return Err(format!("rule {number} is not one plain text"));
        };
        let plain = text.ends_with('.')
            && text.bytes().all(|letter| (b' '..=b'~').contains(&letter) && letter != b'\\' && letter != b'"');
        if !plain {
            return Err(format!("the sentence of rule {number} is no plain text with a full stop at its end"));
        }
        found.push(text);
    }
    match found.len() {
        count if count == rules => Ok(found),
        count => Err(format!("there are {count} rules in it, and not {rules}")),
    }
}

fn rules(source: &str, header: &str) -> String {
    let count = count(header).unwrap_or_else(|| panic!("{HEADER} does not say how many rules there are"));
    let found = sentences(source, count)
        .unwrap_or_else(|trouble| panic!("{SENTENCES} no longer has the expected form: {trouble}"));
    format!("pub const COUNT: usize = {count};\nstatic RULES: [&str; COUNT] = {found:#?};\n")
}

/// The text of a file of the repository; the tool is built again when it changes.
fn source(host: &str, name: &str) -> String {
    let place = Path::new(host).join(name);
    println!("cargo:rerun-if-changed={}", place.display());
    std::fs::read_to_string(&place).unwrap_or_else(|error| panic!("{name}: {error}"))
}

fn main() {
    let host = std::env::var("CARGO_MANIFEST_DIR").expect("cargo says where the host is");
    let folder = Path::new(&host).join("../target/staticlib");
    println!("cargo:rustc-link-search=native={}", folder.display());
    println!("cargo:rustc-link-lib=static=cabi");
    println!("cargo:rerun-if-changed={}", folder.join("libcabi.a").display());
    println!("cargo:rerun-if-changed=build.rs");

    let dictionary = std::fs::read_to_string(DICTIONARY)
        .unwrap_or_else(|error| panic!("{DICTIONARY}: {error}; Debian's package python3-pydicom has it"));
    let out = std::env::var("OUT_DIR").expect("cargo says where to write");
    std::fs::write(Path::new(&out).join("names.rs"), tables(&dictionary)).expect("cargo's own folder can be written");
    println!("cargo:rerun-if-changed={DICTIONARY}");

    let rules = rules(&source(&host, SENTENCES), &source(&host, HEADER));
    std::fs::write(Path::new(&out).join("rules.rs"), rules).expect("cargo's own folder can be written");
}
