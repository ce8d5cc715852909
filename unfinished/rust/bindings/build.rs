//! Links the proved static libraries, which `firmware/modules` writes, and turns the header's checks of sizes and offsets into checks of the structs here.
use std::fmt::Write;

const TYPES: [(&str, &str); 11] = [
    ("vwrite_file", "crate::File"),
    ("vwrite_rec", "crate::Rec"),
    ("vwrite_pair_place", "crate::Pair"),
    ("vwrite_st", "crate::St"),
    ("vwrite_done", "crate::Done"),
    ("vwrite_stats", "crate::Stats"),
    ("vwrite_state", "crate::State"),
    ("vwrite_own", "crate::linked::Own"),
    ("vwrite_end", "crate::linked::End"),
    ("vwrite_handed", "crate::linked::Handed"),
    ("vwrite_reason", "crate::linked::Reason"),
];

/// `VWRITE_SIZE(type, size, align);` and `VWRITE_AT(type, field, offset);` of the header, each as a check when this is compiled.
fn layout(header: &str) -> String {
    let mut checks = String::new();
    for line in header.lines() {
        let Some((name, words)) = line.strip_suffix(");").and_then(|l| l.split_once('(')) else { continue };
        let [of, a, b] = words.split(", ").collect::<Vec<_>>()[..] else { continue };
        let Some((_, ours)) = TYPES.iter().find(|t| t.0 == of) else { continue };
        match name {
            "VWRITE_SIZE" => writeln!(checks, "const _: () = assert!(size_of::<{ours}>() == {a} && align_of::<{ours}>() == {b});").unwrap(),
            "VWRITE_AT" => writeln!(checks, "const _: () = assert!(offset_of!({ours}, {a}) == {b});").unwrap(),
            _ => {}
        }
    }
    assert!(checks.lines().count() > TYPES.len(), "the header has no checks");
    checks
}

fn main() {
    let here = std::env::var("CARGO_MANIFEST_DIR").unwrap();
    let header = format!("{here}/../../include/vwrite.h");
    let checks = layout(&std::fs::read_to_string(&header).unwrap_or_else(|e| panic!("{header}: {e}")));
    std::fs::write(format!("{}/layout.rs", std::env::var("OUT_DIR").unwrap()), checks).unwrap();
    println!("cargo:rerun-if-changed={header}");
    println!("cargo:rustc-link-search=native={here}/../../target/staticlib");
    for name in ["vwrite", "vwrite_reads", "vwrite_ends", "vwrite_sessions", "vwrite_reasons"] {
        println!("cargo:rustc-link-lib=static={name}");
        println!("cargo:rerun-if-changed={here}/../../target/staticlib/lib{name}.a");
    }
}
