//! Tells rustc where the proved archive is, and builds again when the archive changes.
//! RULANTIP_STATICLIB names another folder that holds a librulantip.a.

use std::env;
use std::path::PathBuf;

fn main() {
    let package = PathBuf::from(env::var_os("CARGO_MANIFEST_DIR").unwrap());
    let folder = match env::var_os("RULANTIP_STATICLIB") {
        Some(named) => PathBuf::from(named),
        None => package.join("../target/staticlib"),
    };
    println!("cargo:rustc-link-search=native={}", folder.display());
    println!("cargo:rustc-env=RULANTIP_ARCHIVE_FOLDER={}", folder.display());
    println!("cargo:rerun-if-changed={}", folder.join("librulantip.a").display());
    println!("cargo:rerun-if-changed=build.rs");
    println!("cargo:rerun-if-env-changed=RULANTIP_STATICLIB");
}
