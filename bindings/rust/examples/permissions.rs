//! cargo run --example permissions FILE: what a manifest asks to be granted, a line each on standard output behind the element's line; what is odd about the file, or
//! why it was refused, on standard error. Ends with 1 where the file was not read.

use itelbash::Manifest;

fn main() {
    let path = std::env::args().nth(1).unwrap_or_else(|| {
        eprintln!("usage: permissions FILE");
        std::process::exit(2);
    });
    let bytes = std::fs::read(&path).unwrap_or_else(|e| {
        eprintln!("{path}: {e}");
        std::process::exit(1);
    });
    let manifest = Manifest::read(&bytes).unwrap_or_else(|refusal| {
        eprintln!("{path}: {refusal}");
        std::process::exit(1);
    });
    for node in manifest.nodes().filter(|n| n.name() == "uses-permission") {
        for attribute in node.attributes().filter(|a| a.name() == "name") {
            println!("{}: {}", node.line(), attribute.text().unwrap_or_default());
        }
    }
    for note in manifest.notes() {
        eprintln!("{path}: {note}");
    }
}
