//! `emulated FOLDER`: writes the benchmark's inputs to the folder and prints its works, a line each: function, argument, file, name.

#[path = "../../src/inputs.rs"]
mod inputs;

use std::path::Path;

fn main() {
    let folder = std::env::args().nth(1).expect("emulated FOLDER");
    let write = |file: &str, bytes: &[u8]| {
        std::fs::write(Path::new(&folder).join(file), bytes).expect("the folder can be written to");
    };
    for function in ["read", "probe"] {
        for (i, input) in inputs::descriptors().iter().enumerate() {
            write(&format!("descriptor{i}"), &input.bytes);
            println!("{function} 0 descriptor{i} {function}: {}", input.name);
        }
    }
    for (i, input) in inputs::read_only().iter().enumerate() {
        write(&format!("only{i}"), &input.bytes);
        println!("read 0 only{i} read: {}", input.name);
    }
    for (i, (name, bytes)) in inputs::scaled().iter().enumerate() {
        write(&format!("scaled{i}"), bytes);
        println!("read 0 scaled{i} scale: {name}");
    }
    for (function, argument, what) in [
        ("map", 0, "map: random offsets"),
        ("map", 1, "map: ascending offsets"),
        ("walk", 1 << 31, "walk: whole disk"),
        ("walk", 65_536, "walk: windows of 64 KB"),
    ] {
        for rows in [1, 20, 128, 1000] {
            write(&format!("table{rows}"), &inputs::table(rows));
            println!("{function} {argument} table{rows} {what}, {rows} rows");
        }
    }
}
