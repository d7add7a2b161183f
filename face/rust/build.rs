//! Links build/libfkv.a, which `make face` leaves; else build/unproved/libfkv.a, which `make face QUICK=1` leaves. `FKV_LIB` names another
//! folder that has one.
use std::{env, path::PathBuf};

const LIBRARY: &str = "libfkv.a";

/// The folder that has the library. One without proof is taken if no other is there, and said to be one.
fn folder() -> PathBuf {
    if let Some(folder) = env::var_os("FKV_LIB") {
        return PathBuf::from(folder);
    }
    let package = env::var_os("CARGO_MANIFEST_DIR").expect("cargo names it");
    let proved = PathBuf::from(package).join("../../build");
    let unproved = proved.join("unproved");
    println!("cargo:rerun-if-changed={}", proved.join(LIBRARY).display());
    if proved.join(LIBRARY).exists() || !unproved.join(LIBRARY).exists() {
        return proved;
    }
    println!("cargo:warning=the library is linked without proof; `make face` proves it");
    unproved
}

fn main() {
    println!("cargo:rerun-if-env-changed=FKV_LIB");
    let folder = folder();
    println!("cargo:rerun-if-changed={}", folder.join(LIBRARY).display());
    println!("cargo:rustc-link-search=native={}", folder.display());
    println!("cargo:rustc-link-lib=static=fkv");
}
