// Included by the build scripts: an archive of the proved library, by the variable that names it.

/// Has the archive linked under one name, whatever its own is.
fn link_archive(variable: &str, name: &str) {
    let archive = given(variable);
    watched(&archive);
    let out = given("OUT_DIR");
    std::fs::copy(&archive, format!("{out}/lib{name}.a")).expect("the archive can be copied");
    println!("cargo:rustc-link-search=native={out}");
    println!("cargo:rustc-link-lib=static={name}");
}

fn watched(file: &str) {
    assert!(std::path::Path::new(file).is_file(), "{file} is not there");
    println!("cargo:rerun-if-changed={file}");
}

fn given(variable: &str) -> String {
    println!("cargo:rerun-if-env-changed={variable}");
    std::env::var(variable).unwrap_or_else(|_| panic!("{variable} is not set"))
}
