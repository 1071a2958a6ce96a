//! Links libgate.a, which tools/static_library.py writes to target/staticlib of the repository.
//! GATE_LIB_DIR names another folder.

use std::env;
use std::path::PathBuf;

fn main() {
    println!("cargo:rerun-if-env-changed=GATE_LIB_DIR");
    let target = env::var("CARGO_CFG_TARGET_ARCH").unwrap_or_default();
    assert!(target == "x86_64", "libgate.a is for x86-64, and the target is {target}");
    let own = || {
        let crate_folder = env::var_os("CARGO_MANIFEST_DIR").expect("cargo names its folder");
        PathBuf::from(crate_folder).join("../../target/staticlib")
    };
    let folder = env::var_os("GATE_LIB_DIR").map_or_else(own, PathBuf::from);
    let library = folder.join("libgate.a");
    println!("cargo:rerun-if-changed={}", library.display());
    assert!(
        library.exists(),
        "{} is missing: run `tools/static_library.py` at the root of the repository",
        library.display()
    );
    println!("cargo:rustc-link-search=native={}", folder.display());
    println!("cargo:rustc-link-lib=static=gate");
}
