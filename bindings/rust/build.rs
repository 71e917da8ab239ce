//! Links the proved library's archive: the one that `TUNOYAKET_C_ARCHIVE` names, else the one that
//! `./archive c_api` makes in this repository. A relative path is taken from this package's
//! folder, whence cargo runs this: it does not tell where it was called.

use std::env;
use std::fs;
use std::path::PathBuf;

const VARIABLE: &str = "TUNOYAKET_C_ARCHIVE";
const DEFAULT: &str = "../../target/staticlib/libc_api.a";

fn main() {
    println!("cargo:rerun-if-env-changed={VARIABLE}");
    let named = env::var_os(VARIABLE).unwrap_or_else(|| DEFAULT.into());
    let archive = PathBuf::from(given("CARGO_MANIFEST_DIR")).join(named);
    assert!(
        archive.is_file(),
        "{} is not there: run `./archive c_api` in the repository, or set {VARIABLE} to the \
         archive's whole path, since a relative one is taken from the package's folder",
        archive.display()
    );
    println!("cargo:rerun-if-changed={}", archive.display());

    // Under one name, whatever its own is.
    let out = given("OUT_DIR");
    fs::copy(&archive, PathBuf::from(&out).join("libtunoyaket_c_api.a"))
        .expect("the archive can be copied");
    println!("cargo:rustc-link-search=native={out}");
    println!("cargo:rustc-link-lib=static=tunoyaket_c_api");
}

fn given(variable: &str) -> String {
    env::var(variable).unwrap_or_else(|_| panic!("cargo sets {variable}"))
}
