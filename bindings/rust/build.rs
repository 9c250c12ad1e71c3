//! Links libthreshowl.a: the one that THRESHOWL_ARCHIVE names, else the one that the tree builds.
//!
//! Where RUST names the folder of the original's motion_comp.rs, its modules are handed to the test that runs both.

use std::env;
use std::fs;
use std::path::{Path, PathBuf};

fn main() {
    let tree = root();
    let archive = env::var_os("THRESHOWL_ARCHIVE").map_or_else(|| tree.join("target/staticlib/libthreshowl.a"), PathBuf::from);
    println!("cargo:rerun-if-env-changed=THRESHOWL_ARCHIVE");
    println!("cargo:rerun-if-changed={}", archive.display());
    let out = PathBuf::from(env::var_os("OUT_DIR").expect("cargo names a folder"));
    fs::copy(&archive, out.join("libthreshowl.a"))
        .unwrap_or_else(|error| panic!("{}: {error}; THRESHOWL_ARCHIVE names the static library", archive.display()));
    println!("cargo:rustc-link-search=native={}", out.display());
    println!("cargo:rustc-link-lib=static=threshowl");

    println!("cargo:rerun-if-env-changed=RUST");
    if let Some(folder) = env::var_os("RUST").filter(|folder| !folder.is_empty()) {
        let stand_ins = tree.join("tests/oracle/original");
        fs::write(out.join("original.rs"), modules(Path::new(&folder), &stand_ins)).expect("OUT_DIR can be written");
        println!("cargo:rustc-cfg=original");
    }
}

fn root() -> PathBuf {
    let own = PathBuf::from(env::var_os("CARGO_MANIFEST_DIR").expect("cargo names the crate's folder"));
    own.join("../..")
}

/// The original's modules from its own folder, and the two of which it needs one record from the stand-ins of tests/oracle.
fn modules(original: &Path, stand_ins: &Path) -> String {
    let one = |name: &str, folder: &Path| {
        let path = fs::canonicalize(folder.join(name).with_extension("rs")).unwrap_or_else(|error| panic!("{name}.rs: {error}"));
        format!("#[allow(warnings)]\n#[path = {path:?}]\npub mod {name};\n")
    };
    let given = ["bool_decoder", "inverse_transform", "motion_comp"].map(|name| one(name, original));
    let stood_in = ["motion_vector", "reconstruct"].map(|name| one(name, stand_ins));
    given.concat() + &stood_in.concat()
}
