//! Makes imago's text includable: `include!` does not take a `//!` line, so the copy that is
//! compiled has a plain comment there. The file in the repository stays byte for byte imago's.

use std::{env, fs, path::Path};

fn main() {
    println!("cargo:rerun-if-changed=src/vmdk/mod.rs");
    let text = fs::read_to_string("src/vmdk/mod.rs").expect("imago's text");
    let body = text.strip_prefix("//!").expect("one inner doc comment at the start");
    let place = Path::new(&env::var("OUT_DIR").expect("a place to write")).join("vmdk.rs");
    fs::write(place, format!("//{body}")).expect("the copy that is compiled");
}
