//! Finds the two sides: the archive of the proved library (TUNOYAKET_ARCHIVE) and the folder of the
//! published Rust (RELD_SRC). The script `setup` beside this file sets both.

include!("archive.rs");

fn main() {
    link_archive("TUNOYAKET_ARCHIVE", "glob_match");
    let published = format!("{}/crates/reld-core/src/glob_match.rs", given("RELD_SRC"));
    watched(&published);
    println!("cargo:rustc-env=GLOB_MATCH_RS={published}");
}
