//! Links the proved libraries from the folder that NAZSOMBET_STATICLIB names.

use std::env;
use std::path::{Path, PathBuf};

fn link(folder: &Path, name: &str) {
    let library = folder.join(format!("lib{name}.a"));
    if !library.exists() {
        panic!("{} is missing: run `./build.sh {name}` first", library.display());
    }
    println!("cargo:rerun-if-changed={}", library.display());
    println!("cargo:rustc-link-lib=static={name}");
}

fn main() {
    let folder = match env::var_os("NAZSOMBET_STATICLIB") {
        Some(folder) => PathBuf::from(folder),
        None => {
            PathBuf::from(env::var_os("CARGO_MANIFEST_DIR").unwrap()).join("../../target/staticlib")
        }
    };
    println!("cargo:rerun-if-env-changed=NAZSOMBET_STATICLIB");
    println!("cargo:rustc-link-search=native={}", folder.display());
    link(&folder, "core_c");
    if env::var_os("CARGO_FEATURE_TOOLS").is_some() {
        link(&folder, "tools_c");
    }
}
