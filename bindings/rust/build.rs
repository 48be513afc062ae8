//! Links the archive that `tools/archive` writes, from the folder NBIOT_ARCHIVE or crates/nbiot_c/out of the repository.

fn main() {
    let here = std::env::var("CARGO_MANIFEST_DIR").expect("cargo sets it");
    let folder = std::env::var("NBIOT_ARCHIVE").unwrap_or(format!("{here}/../../crates/nbiot_c/out"));
    println!("cargo:rerun-if-env-changed=NBIOT_ARCHIVE");
    println!("cargo:rerun-if-changed={folder}/libnbiot_c.a");
    println!("cargo:rustc-link-search=native={folder}");
    println!("cargo:rustc-link-lib=static=nbiot_c");
}
