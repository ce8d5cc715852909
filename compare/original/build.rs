//! Takes vwrite.rs and vdisk.rs from beside the repository as they are and appends the hooks. As the package `numbered`, each refusal of vwrite.rs
//! also notes its number of document 01. With COMPARE_EDIT=N the N-th wrong edit (crate `edited`) is made first.
use std::path::{Path, PathBuf};
use std::{env, fs};

/// Document 01's numbers of the refusals of vwrite.rs, in the order of its text.
const NUMBERS: [u8; 25] = [12, 2, 3, 4, 4, 5, 13, 6, 14, 7, 8, 15, 9, 5, 13, 13, 19, 16, 17, 17, 17, 17, 18, 17, 17];

fn sources() -> PathBuf {
    println!("cargo:rerun-if-env-changed=VWRITE_RUST");
    match env::var_os("VWRITE_RUST") {
        Some(p) => PathBuf::from(p),
        None => Path::new(env!("CARGO_MANIFEST_DIR")).join("../../../shared/docs/src/firmware/src"),
    }
}

fn taken(name: &str) -> String {
    let path = sources().join(name);
    println!("cargo:rerun-if-changed={}", path.display());
    fs::read_to_string(&path).unwrap_or_else(|e| panic!("{}: {e}; VWRITE_RUST names another folder", path.display()))
}

/// Every refusal of vwrite.rs is one of these words inside Err(..), ok_or(..) or map_err(..).
fn with_numbers(text: &str) -> String {
    let mut out = String::new();
    let mut rest = text;
    let mut n = 0;
    while let Some((at, word)) = ["(E_REFUSED)", "(E_IO)", "(E_BUSY)", "|_| E_REFUSED)"].iter().filter_map(|w| rest.find(w).map(|i| (i, *w))).min() {
        let code = word.trim_matches(|c: char| "()|_ ".contains(c)).to_string();
        let code = if code.starts_with("E_") { code } else { format!("E_{code}") };
        let new = word.replace(&code, &format!("numbered({code}, {})", NUMBERS[n]));
        out += &rest[..at];
        out += &new;
        rest = &rest[at + word.len()..];
        n += 1;
    }
    assert_eq!(n, NUMBERS.len(), "vwrite.rs has another number of refusals");
    out + rest
}

/// The two files, after the edit that COMPARE_EDIT names.
fn edited() -> [String; 2] {
    println!("cargo:rerun-if-env-changed=COMPARE_EDIT");
    let mut texts = edited::FILES.map(taken);
    let Ok(n) = env::var("COMPARE_EDIT") else { return texts };
    let path = Path::new(env!("CARGO_MANIFEST_DIR")).join("../edits.txt");
    println!("cargo:rerun-if-changed={}", path.display());
    let all = edited::list(&texts, &fs::read_to_string(path).expect("edits.txt"));
    let edit = &all[n.parse::<usize>().expect("COMPARE_EDIT is a number")];
    let which = edited::FILES.iter().position(|f| *f == edit.file).unwrap();
    texts[which] = edit.on(&texts[which]);
    texts
}

fn main() {
    let here = Path::new(env!("CARGO_MANIFEST_DIR")).join("../original");
    let out = PathBuf::from(env::var_os("OUT_DIR").unwrap());
    let number = env::var("CARGO_PKG_NAME").unwrap() == "numbered";
    let texts = if number { edited::FILES.map(taken) } else { edited() };
    for (name, text) in edited::FILES.into_iter().zip(texts) {
        let hooks = here.join("src").join(format!("{}_hooks.rs", &name[..name.len() - 3]));
        println!("cargo:rerun-if-changed={}", hooks.display());
        let text = if number && name == "vwrite.rs" { with_numbers(&text) } else { text };
        fs::write(out.join(name), format!("{text}\n{}", fs::read_to_string(hooks).unwrap())).unwrap();
    }
    let mods = format!("#[path = {:?}]\npub mod vwrite;\n#[path = {:?}]\npub mod vdisk_rs;\n", out.join("vwrite.rs"), out.join("vdisk.rs"));
    fs::write(out.join("mods.rs"), mods).unwrap();
}
