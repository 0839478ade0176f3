//! The table of refusals, crates/image/src/refusals.rt: number, name, calls and cause of each. The
//! page docs/format.md has the same table, and the C header and the Rust package have the same
//! numbers under the same names. No other file of Rattle declares one of them.

use std::fs;
use std::path::{Path, PathBuf};

/// The table, by its path from the root of the repository.
const TABLE: &str = "crates/image/src/refusals.rt";

/// The numbers of document 01 and of the orders that have landed, less the retired one.
const NUMBERS: [u32; 19] = [
    1, 2, 3, 4, 5, 7, 8, 11, 12, 13, 14, 15, 16, 17, 21, 22, 23, 24, 25,
];

/// The number that order 9 has retired.
const RETIRED: u32 = 6;

/// A refusal as the table and the page have it, under the name that other languages have for it.
#[derive(Debug, PartialEq)]
struct Refusal {
    number: u32,
    name: String,
    calls: String,
    cause: String,
}

/// Gives the root of the repository.
fn root() -> PathBuf {
    Path::new(env!("CARGO_MANIFEST_DIR")).join("..")
}

/// Reads a file of the repository.
fn read(path: &Path) -> String {
    fs::read_to_string(path).unwrap_or_else(|error| panic!("{}: {error}", path.display()))
}

/// Gives the part of a text behind an opening and before a closing.
fn between<'a>(text: &'a str, opening: &str, closing: &str) -> &'a str {
    let (_, behind) = text.split_once(opening).expect("the text has the opening");
    let (part, _) = behind.split_once(closing).expect("the part is closed");
    part
}

/// Gives the name that other languages have for a variant: TABLE_WRONG for `TableWrong`.
fn name_of(variant: &str) -> String {
    let mut name = String::new();
    for letter in variant.chars() {
        if letter.is_uppercase() && !name.is_empty() {
            name.push('_');
        }
        name.extend(letter.to_uppercase());
    }
    name
}

/// Reads a comment of the table and the variant below it:
/// `// 15, check, ask, walk: the cause.` and `TableWrong = 15,`.
fn read_refusal(lines: &str) -> Option<Refusal> {
    let (comment, variant) = lines.split_once('\n')?;
    let comment = comment.trim().strip_prefix("// ")?.strip_suffix('.')?;
    let (head, cause) = comment.split_once(": ")?;
    let (number, calls) = head.split_once(", ")?;
    let (variant, value) = variant.trim().strip_suffix(',')?.split_once(" = ")?;
    (value == number).then_some(Refusal {
        number: number.parse().ok()?,
        name: name_of(variant),
        calls: calls.to_owned(),
        cause: cause.to_owned(),
    })
}

/// Gives the refusals of the table. Its first line says what it is.
fn table() -> Vec<Refusal> {
    let text = read(&root().join(TABLE));
    let first = text.lines().next().expect("the table has a first line");
    assert!(first.starts_with("// "));
    assert!(first.contains(&format!("Number {RETIRED} is retired")));
    let variants = between(&text, "\npub enum Refusal {\n", "\n}\n");
    let refusal = |part| read_refusal(part).unwrap_or_else(|| panic!("no variant: {part}"));
    variants.split("\n\n").map(refusal).collect()
}

/// Reads a row of the page's table. A retired number has no name.
fn read_row(row: &str) -> Option<Refusal> {
    let cells = row.strip_prefix("| ")?.strip_suffix(" |")?;
    let cells: Vec<&str> = cells.split(" | ").map(str::trim).collect();
    let [number, name, calls, cause] = cells[..] else {
        return None;
    };
    Some(Refusal {
        number: number.parse().ok()?,
        name: name.trim_matches('`').to_owned(),
        calls: calls.to_owned(),
        cause: cause.to_owned(),
    })
}

/// Gives the refusals of the page, retired numbers included.
fn page() -> Vec<Refusal> {
    let page = read(&root().join("docs/format.md"));
    let section = between(&page, "\n## Turning a file down\n", "\n## ");
    let rows = between(section, "\n| --- | --- | --- | --- |\n", "\n\n");
    let refusal = |row| read_row(row).unwrap_or_else(|| panic!("no row: {row}"));
    rows.lines().map(refusal).collect()
}

/// Gives numbers and names of the table.
fn names() -> Vec<(u32, String)> {
    let refusals = table().into_iter();
    refusals.map(|row| (row.number, row.name)).collect()
}

/// Reads a line of the header's enumeration: `RANGE_FILTER_TABLE_WRONG = 15, /* .. */`.
fn read_enumerator(line: &str) -> Option<(u32, String)> {
    let (name, behind) = line.trim().split_once(" = ")?;
    let (number, _) = behind.split_once([',', ' '])?;
    let name = name.strip_prefix("RANGE_FILTER_")?;
    Some((number.parse().ok()?, name.to_owned()))
}

/// Reads a line of the package's table: `TableWrong = 15, "TABLE_WRONG" =>`. The variant has the
/// words of the name.
fn read_variant(line: &str) -> Option<(u32, String)> {
    let (variant, behind) = line.trim().strip_suffix(" =>")?.split_once(" = ")?;
    let (number, name) = behind.split_once(", ")?;
    let name = name.strip_prefix('"')?.strip_suffix('"')?;
    let words = name.split('_').map(|word| {
        let (first, rest) = word.split_at(1);
        first.to_owned() + &rest.to_lowercase()
    });
    assert_eq!(words.collect::<String>(), variant);
    Some((number.parse().ok()?, name.to_owned()))
}

#[test]
fn the_table_has_every_number_once() {
    let numbers: Vec<u32> = table().iter().map(|refusal| refusal.number).collect();
    assert_eq!(numbers, NUMBERS);
    let mut names: Vec<String> = names().into_iter().map(|(_, name)| name).collect();
    names.sort();
    names.dedup();
    assert_eq!(names.len(), NUMBERS.len(), "no two names are equal");
}

#[test]
fn the_page_has_the_table() {
    let (retired, others): (Vec<Refusal>, Vec<Refusal>) =
        page().into_iter().partition(|row| row.name.is_empty());
    assert_eq!(others, table());
    let retired: Vec<(u32, &str)> = retired
        .iter()
        .map(|row| (row.number, row.calls.as_str()))
        .collect();
    assert_eq!(retired, [(RETIRED, "none")]);
}

#[test]
fn the_header_has_the_names_and_a_text_for_each() {
    let header = read(&root().join("include/range_filter.h"));
    let lines = between(&header, "\nenum range_filter_refusal {\n", "\n};");
    let refusal = |line| read_enumerator(line).unwrap_or_else(|| panic!("no number: {line}"));
    let found: Vec<(u32, String)> = lines.lines().map(refusal).collect();
    assert_eq!(found, names());
    let texts = between(&header, " *range_filter_refusal_text(", "\n}");
    for (_, name) in found {
        let case = format!("case RANGE_FILTER_{name}: return ");
        assert_eq!(texts.matches(&case).count(), 1, "{case}");
    }
}

#[test]
fn the_package_has_the_names() {
    let source = read(&root().join("rust/src/refusal.rs"));
    let lines = between(&source, "\nrefusals! {\n", "\n}");
    let found: Vec<(u32, String)> = lines.lines().filter_map(read_variant).collect();
    assert_eq!(found, names());
}

/// Gives the files of Rattle in a folder and in those below it, but for the copies that rt makes in
/// folders named out.
fn sources(folder: &Path) -> Vec<PathBuf> {
    let mut found = Vec::new();
    for entry in fs::read_dir(folder).expect("the folder can be read") {
        let path = entry.expect("the folder can be read").path();
        if path.is_dir() && !path.ends_with("out") {
            found.extend(sources(&path));
        } else if path.extension().is_some_and(|ending| ending == "rt") {
            found.push(path);
        }
    }
    found
}

/// Gives the number of 32 bits that a line of Rattle declares, `const NAME: u32 = 15;`, if it is one.
fn declared(line: &str) -> Option<u32> {
    let line = line.trim_start();
    let line = line.strip_prefix("pub ").unwrap_or(line);
    let (_, value) = line.strip_prefix("const ")?.split_once(": u32 = ")?;
    value.strip_suffix(';')?.parse().ok()
}

/// Gives the number of a refusal that a line of Rattle makes by itself: `Err(15)`.
fn made(line: &str) -> Option<u32> {
    let (_, behind) = line.split_once("Err(")?;
    let (number, _) = behind.split_once(')')?;
    number.parse().ok()
}

#[test]
fn no_other_file_declares_a_refusal() {
    let files = sources(&root().join("crates")).into_iter();
    let (tables, others): (Vec<PathBuf>, Vec<PathBuf>) =
        files.partition(|path| *path == root().join(TABLE));
    assert_eq!(tables.len(), 1, "the table is among the files");
    let mut again = Vec::new();
    for path in others {
        let text = read(&path);
        let numbers = text
            .lines()
            .filter_map(|line| declared(line).or(made(line)));
        let refusals = numbers.filter(|number| NUMBERS.contains(number));
        again.extend(refusals.map(|number| format!("{number} in {}", path.display())));
    }
    assert!(
        again.is_empty(),
        "use the variants of {TABLE} in the place of these: {again:#?}"
    );
}
