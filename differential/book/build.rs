//! Finds the archive of the library for C, C++ and Rust programs (TUNOYAKET_C_ARCHIVE). The script
//! `setup` sets it.

include!("../host/archive.rs");

fn main() {
    link_archive("TUNOYAKET_C_ARCHIVE", "c_api");
}
