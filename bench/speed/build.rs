//! Links the proved library: ISDB_HOST_DIR is the directory of libisdb_host.a.
fn main() {
    let dir = std::env::var("ISDB_HOST_DIR").expect("ISDB_HOST_DIR names the directory of libisdb_host.a");
    println!("cargo:rustc-link-search=native={dir}");
    println!("cargo:rustc-link-lib=static=isdb_host");
    println!("cargo:rerun-if-env-changed=ISDB_HOST_DIR");
    println!("cargo:rerun-if-changed={dir}/libisdb_host.a");
}
