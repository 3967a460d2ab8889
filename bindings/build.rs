//! Where libtelfjost.a is: the folder that TELFJOST_LIB_DIR names, else ../target/staticlib,
//! where `tools/library` puts it.

use std::path::Path;
use std::{env, process};

fn main() {
    println!("cargo:rerun-if-env-changed=TELFJOST_LIB_DIR");
    let beside =
        Path::new(&env::var_os("CARGO_MANIFEST_DIR").unwrap_or_default()).join("../target/staticlib");
    let folder = env::var_os("TELFJOST_LIB_DIR").map_or(beside, Into::into);
    let library = folder.join("libtelfjost.a");
    println!("cargo:rerun-if-changed={}", library.display());
    if !library.is_file() {
        eprintln!("no {}: run `tools/library`, or name its folder by TELFJOST_LIB_DIR", library.display());
        process::exit(1);
    }
    println!("cargo:rustc-link-search=native={}", folder.display());
}
