//! Links our side, a static library, if `OURS_LIB` names one; without it the Rust is timed alone.

use std::{env, path::Path};

fn main() {
    println!("cargo:rerun-if-env-changed=OURS_LIB");
    let Some(library) = env::var_os("OURS_LIB").filter(|path| !path.is_empty()) else {
        return;
    };
    let library = Path::new(&library);
    let folder = library.parent().expect("a folder").display();
    let name = library.file_stem().and_then(|stem| stem.to_str()).and_then(|stem| stem.strip_prefix("lib"));
    println!("cargo:rerun-if-changed={}", library.display());
    println!("cargo:rustc-link-search=native={folder}");
    println!("cargo:rustc-link-lib=static={}", name.expect("a name libNAME.a"));
    println!("cargo:rustc-cfg=ours");
}
