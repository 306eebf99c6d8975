// Links libisdb_host.a: from ISDB_LIB_DIR, or from where `rt lib` in crates/isdb_host writes it.
use std::{env, path::PathBuf, process};

fn main() {
    println!("cargo:rerun-if-env-changed=ISDB_LIB_DIR");
    let own = PathBuf::from(env::var_os("CARGO_MANIFEST_DIR").expect("cargo sets it"));
    let dir = env::var_os("ISDB_LIB_DIR").map_or_else(|| own.join("../../crates/isdb_host/out"), PathBuf::from);
    let archive = dir.join("libisdb_host.a");
    if !archive.is_file() {
        eprintln!("{} is not there: run `rt lib` in crates/isdb_host, or set ISDB_LIB_DIR", archive.display());
        process::exit(1);
    }
    println!("cargo:rerun-if-changed={}", archive.display());
    println!("cargo:rustc-link-search=native={}", dir.display());
    println!("cargo:rustc-link-lib=static=isdb_host");
}
