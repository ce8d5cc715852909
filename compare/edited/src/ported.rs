//! Which parts of the text were ported.
use std::ops::Range;

pub struct Part {
    pub name: &'static str,
    pub at: Range<usize>,
}

/// Functions by name; `HOUSEKEEPING` and the waits are constants.
const VWRITE: [&str; 50] = [
    "const NREC",
    "const NPAIR",
    "const NST",
    "const QUIET_MS",
    "const END_WAIT_MS",
    "fn le16",
    "fn le16o",
    "fn le32o",
    "fn read_only",
    "fn read_only_pending",
    "fn set_read_only",
    "fn on_bus_reset",
    "fn frozen",
    "fn boot_state",
    "fn fat1",
    "fn pair_idx",
    "fn pair",
    "fn root_rec",
    "fn slot_of",
    "fn staged_read",
    "fn write",
    "fn classify",
    "fn boot",
    "fn is_date",
    "fn dates_only",
    "fn frees_all",
    "fn ours_live",
    "fn fat",
    "fn set_pair",
    "fn update_name",
    "fn host_cluster",
    "const HOUSEKEEPING",
    "fn long_name",
    "fn housekeeping",
    "fn rec_ok",
    "fn root",
    "fn dir",
    "fn note_moves",
    "fn refers",
    "fn moved_ref",
    "fn data",
    "fn stage",
    "fn poll",
    "fn complete",
    "fn decode_block",
    "fn crc16_upd",
    "fn check",
    "fn release_all",
    "fn release",
    "fn fw_unchecked",
];

const VDISK: [&str; 5] = ["fn id_dir", "fn nclus", "fn owner", "fn dir_kind", "fn on_bus_reset"];

/// `poll` is ported up to its quiet release, which this follows.
const POLL_ENDS: &str = "if !spi_free()";

pub fn parts(file: &str, text: &str) -> Vec<Part> {
    let names: &[&'static str] = if file == "vdisk.rs" { &VDISK } else { &VWRITE };
    names.iter().map(|name| Part { name, at: part(text, name) }).collect()
}

fn part(text: &str, name: &str) -> Range<usize> {
    let head = format!("{name}{}", if name.starts_with("fn ") { "(" } else { ":" });
    let at = text.find(&head).unwrap_or_else(|| panic!("{head} is not in the text"));
    if name.starts_with("const ") {
        let from = at + text[at..].find('=').unwrap() + 1;
        return from..from + text[from..].find(';').unwrap();
    }
    let from = at + text[at..].find('{').unwrap();
    let to = from + text[from..].find("\n}").unwrap();
    match text[from..to].find(POLL_ENDS) {
        Some(cut) if name == "fn poll" => from + 1..from + cut,
        _ => from + 1..to,
    }
}
