//! Finds the two sides: the archive of the proved reader (TUNOYAKET_READING_ARCHIVE) and the folder
//! of the published Rust (RELD_SRC). The script `setup` sets both.
//!
//! Each published file becomes a module of this crate: its text, unchanged, and behind it a few
//! lines that bring the stand-ins into scope and name a child module (src/probes/), which sees what
//! is private there. linker_script.rs as a whole needs much of the linker; of it the skip function
//! is cut out, with its error type and the file's own imports of winnow.

include!("../../host/archive.rs");

use std::fs;

fn main() {
    link_archive("TUNOYAKET_READING_ARCHIVE", "reading_rows");
    let out = given("OUT_DIR");

    let probes = format!("{}/src/probes", given("CARGO_MANIFEST_DIR"));
    let probe = |name| {
        format!(
            "#[path = {:?}]\npub mod probe;\n",
            format!("{probes}/{name}.rs")
        )
    };
    // Before Rust 1.87, `str::from_utf8` was found in the module `std::str` alone.
    let in_scope =
        "use crate::standins::{object, symbolic_common, symbolic_demangle};\nuse std::str;\n";

    let modules = [
        ("glob_match", published("glob_match"), String::new()),
        ("hash", published("hash"), String::new()),
        ("symbol", published("symbol"), String::new()),
        (
            "version_script",
            published("version_script"),
            in_scope.to_string() + &probe("version_script"),
        ),
        (
            "export_list",
            published("export_list"),
            probe("export_list"),
        ),
    ];
    let write = |name: &str, text: &str| {
        let file = format!("{out}/{name}.rs");
        fs::write(&file, text).unwrap_or_else(|error| panic!("{file}: {error}"));
        file
    };
    let mut root = String::new();
    for (name, text, behind) in modules {
        let file = write(name, &format!("{text}\n{behind}"));
        root += &format!("#[allow(dead_code, unused_imports)]\n#[path = {file:?}]\nmod {name};\n");
    }
    write("modules", &root);
    write("skip_function", &skip_function());
}

/// The text of one published file.
fn published(name: &str) -> String {
    let file = format!("{}/crates/reld-core/src/{name}.rs", given("RELD_SRC"));
    watched(&file);
    fs::read_to_string(&file).unwrap_or_else(|error| panic!("{file}: {error}"))
}

/// `skip_comments_and_whitespace` and what it names, out of linker_script.rs.
fn skip_function() -> String {
    let whole = published("linker_script");
    let imports = whole
        .lines()
        .filter(|line| line.starts_with("use winnow::"));
    let items = [
        "pub(crate) fn skip_comments_and_whitespace(",
        "#[derive(Debug)]\nenum LinkerScriptError ",
        "impl std::error::Error for LinkerScriptError ",
        "impl std::fmt::Display for LinkerScriptError ",
    ];
    let texts = items.map(|start| item(&whole, start));
    let parts: Vec<&str> = imports.chain(texts).collect();
    parts.join("\n")
}

/// From its first words to the end of the first line that is a `}`, or has its `{}`.
fn item<'a>(whole: &'a str, start: &str) -> &'a str {
    let found: Vec<usize> = whole.match_indices(start).map(|(at, _)| at).collect();
    let [at] = found[..] else {
        panic!("`{start}` stands {} times in linker_script.rs", found.len())
    };
    let text = &whole[at..];
    let ends = ["\n}\n", "{}\n"].into_iter();
    let end = ends
        .filter_map(|end| Some(text.find(end)? + end.len()))
        .min();
    &text[..end.expect("an item ends")]
}
