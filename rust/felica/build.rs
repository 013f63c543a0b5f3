// Links libfelica_c.a from the folder in FELICA_LIB. A relative folder counts from this package.
use std::env;
use std::path::PathBuf;

fn main() {
    println!("cargo::rerun-if-env-changed=FELICA_LIB");
    let package = PathBuf::from(env::var_os("CARGO_MANIFEST_DIR").expect("cargo sets CARGO_MANIFEST_DIR"));
    let folder = package.join(env::var_os("FELICA_LIB").unwrap_or_else(|| "../../target/staticlib".into()));
    let archive = folder.join("libfelica_c.a");
    println!("cargo::rerun-if-changed={}", archive.display());
    assert!(
        archive.is_file(),
        "{} is missing: make it with `bash c/archive` in the root of the repository, or set FELICA_LIB to its folder",
        archive.display()
    );
    println!("cargo::rustc-link-search=native={}", folder.display());
    println!("cargo::rustc-link-lib=static=felica_c");
}
