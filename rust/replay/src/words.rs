//! What was judged, in words.
use crate::session::{Answer, Session};
use crate::story::How;
use bindings::calls::{vwrite_dir_kind, vwrite_owner, vwrite_pair};
use bindings::{File, Sector, State, CB, DATA_START, FAT_SECS, FAT_START, LAST_CLUSTER, ROOT_START, SPC, TOTAL};
use line_form::Call;

/// The state and the table that a call met.
pub struct Before {
    pub w: State,
    pub files: Vec<File>,
}

const DIRECTORIES: [&str; 3] = ["LOGS", "SCOPE", "SHOTS"];

/// What each refusal number says (document 01).
const REFUSALS: [&str; 22] = [
    "taken",
    "a sector isn't 512 bytes",
    "the place is past the drive's end",
    "more than the boot byte differs",
    "FAT[0] differs, or FAT[1] in more than its two flags",
    "a Reserved or Fixed cluster",
    "no value that a host's entry may have",
    "one of the drive's own root slots, in more than dates",
    "a root slot that isn't admitted",
    "a directory slot changed otherwise than by a turn",
    "more than 400 files, or a table that a start doesn't take",
    "a body under 128 bytes",
    "the drive is read-only",
    "part of a live file",
    "no place for another pair",
    "no place for another record",
    "no staging slot is free",
    "no medium, or a held block outside it",
    "no free block on the medium",
    "the medium is busy",
    "the chain isn't complete",
    "not a row of the table whose file is handed",
];

pub fn refusal(number: u8) -> &'static str {
    REFUSALS.get(number as usize).unwrap_or(&"no number that is known")
}

pub fn files_told(n: usize) -> String {
    format!("{n} {}", if n == 1 { "file" } else { "files" })
}

/// The name that the drive shows for a file.
pub fn file_name(id: u16) -> String {
    let (prefix, ending) = [("LOG", "CSV"), ("SCOP", "CSV"), ("S", "BMP"), ("FAST", "CSV")][(id >> 10 & 3) as usize];
    format!("{prefix}{:03}.{ending}", id & 0x3FF)
}

/// Where a sector stands.
pub enum Place {
    Boot,
    Fat(u32),
    Root(u32),
    /// A directory of files, or one of the two fixed ones, and the sector in it.
    Directory(u32, u16, u32),
    Data(u32, u32),
    Past,
}

pub fn place(lba: u32) -> Place {
    match lba {
        0 => Place::Boot,
        FAT_START..=508 => Place::Fat((lba - FAT_START) % FAT_SECS),
        ROOT_START..=540 => Place::Root(lba - ROOT_START),
        TOTAL.. => Place::Past,
        _ => {
            let (c, s) = ((lba - DATA_START) / SPC + 2, (lba - DATA_START) % SPC);
            match vwrite_dir_kind(c) {
                d if d.found => Place::Directory(c, d.kind, s),
                _ => Place::Data(c, s),
            }
        }
    }
}

fn word(s: &Sector, i: usize) -> u16 {
    u16::from_le_bytes([s[2 * i], s[2 * i + 1]])
}

/// The file that a cluster belongs to: of a cluster that was freed, and may be another's, none.
fn file_of(b: &Before, c: u32) -> Option<usize> {
    let own = vwrite_owner(&b.files, b.w.first, c);
    let is_file = own.no == 0 && own.owner == 2;
    (is_file && b.files[own.row].id & 0x2000 == 0 && !vwrite_pair(&b.w, c).found).then_some(own.row)
}

/// The file whose slot stands there.
fn file_in(b: &Before, kind: u16, slot: u32) -> Option<usize> {
    let directory = |id: u16| if id >> 10 & 3 == 3 { 0 } else { id >> 10 & 3 };
    b.files.iter().position(|f| directory(f.id) == kind && f.slot as u32 == slot)
}

/// A changed entry, with its file where it has one.
fn entry(b: &Before, c: u32, v: u16) -> String {
    match file_of(b, c) {
        Some(j) => format!("FAT entry {c} of {} to {v}", file_name(b.files[j].id)),
        None => format!("FAT entry {c} to {v}"),
    }
}

/// The changed entries of a FAT sector, rising.
fn changed_entries(s: u32, g: &Sector, d: &Sector) -> Vec<(u32, u16)> {
    (0..256).filter(|&i| word(g, i) != word(d, i)).map(|i| (s * 256 + i as u32, word(d, i))).collect()
}

/// The first entry of a file in a FAT sector that would not be free.
fn kept_entry(b: &Before, j: usize, sector: u32, d: &Sector) -> Option<u32> {
    let f = &b.files[j];
    let mut clusters = f.vstart as u32..f.vstart as u32 + f.vsize.div_ceil(CB);
    clusters.find(|c| c / 256 == sector && word(d, (c % 256) as usize) != 0)
}

/// The entry that a FAT sector is refused for, and why.
fn refused_entry(b: &Before, number: u8, list: &[(u32, u16)], d: &Sector) -> Option<String> {
    let sector = list.first()?.0 / 256;
    let &(c, v) = list.iter().find(|&&(c, v)| match (number, file_of(b, c)) {
        (4, _) => c < 2,
        (13, Some(j)) => v != 0 || kept_entry(b, j, sector, d).is_some(),
        (5, None) => c >= 2 && (c < b.w.first || c > LAST_CLUSTER),
        (6, _) => v != 0 && !(2..=LAST_CLUSTER as u16).contains(&v) && v < 0xFFF8,
        _ => false,
    })?;
    let other = file_of(b, c).and_then(|j| kept_entry(b, j, sector, d));
    Some(match (number, v, other) {
        (13, 0, Some(other)) => format!("{}, but entry {other} of the same file not", entry(b, c, v)),
        (13, _, _) => format!("{}, where a file's entries may only all become 0", entry(b, c, v)),
        _ => entry(b, c, v),
    })
}

fn changed_slots(g: &Sector, d: &Sector) -> Vec<usize> {
    (0..16).filter(|i| g[i * 32..i * 32 + 32] != d[i * 32..i * 32 + 32]).collect()
}

/// What a slot holds: a short name, a part of a long one, or nothing.
fn slot_name(e: &[u8]) -> String {
    let text = |b: &[u8]| b.iter().map(|&c| if (0x20..0x7F).contains(&c) { c as char } else { '?' }).collect::<String>().trim_end().to_string();
    match (e[0], e[11] & 0x3F) {
        (0, _) => "empty".to_string(),
        (0xE5, _) => "deleted".to_string(),
        (_, 0x0F) => {
            let units = (1..11).chain(14..26).chain(28..32).step_by(2).map(|i| u16::from_le_bytes([e[i], e[i + 1]]));
            let name: String = char::decode_utf16(units.take_while(|&u| u != 0 && u != 0xFFFF)).map(|c| c.unwrap_or('?')).collect();
            format!("part of the long name \"{name}\"")
        }
        _ => match text(&e[8..11]) {
            ending if ending.is_empty() => format!("\"{}\"", text(&e[..8])),
            ending => format!("\"{}.{ending}\"", text(&e[..8])),
        },
    }
}

/// A few, and how many more.
fn some(list: Vec<String>) -> String {
    let more = list.len().saturating_sub(4);
    let few = list.into_iter().take(4).collect::<Vec<_>>().join(", ");
    if more == 0 {
        few
    } else {
        format!("{few} and {more} more")
    }
}

fn fat_content(b: &Before, number: u8, s: u32, g: &Sector, d: &Sector) -> String {
    let list = changed_entries(s, g, d);
    let all = || some(list.iter().map(|&(c, v)| entry(b, c, v)).collect());
    if list.is_empty() {
        format!("FAT sector {s}")
    } else {
        refused_entry(b, number, &list, d).unwrap_or_else(all)
    }
}

fn directory_slot(b: &Before, kind: u16, slot: u32) -> String {
    let name = DIRECTORIES.get(kind as usize).unwrap_or(&"fixed directory");
    match file_in(b, kind, slot) {
        Some(j) => format!("{name} slot {slot} of {}", file_name(b.files[j].id)),
        None => format!("{name} slot {slot}"),
    }
}

/// What the sector at a place holds that the drive doesn't show.
fn content(b: &Before, number: u8, lba: u32, g: &Sector, d: &Sector) -> String {
    let changed = || changed_slots(g, d).into_iter();
    match place(lba) {
        Place::Boot => "boot sector".to_string(),
        Place::Fat(s) => fat_content(b, number, s, g, d),
        Place::Root(s) if g == d => format!("root sector {s}"),
        Place::Root(s) => some(changed().map(|i| format!("root slot {}, {}", s as usize * 16 + i, slot_name(&d[i * 32..i * 32 + 32]))).collect()),
        Place::Directory(c, _, s) if g == d => format!("directory sector {s} of cluster {c}"),
        Place::Directory(_, kind, s) => some(changed().map(|i| directory_slot(b, kind, s * 16 + i as u32)).collect()),
        Place::Data(c, s) => match file_of(b, c) {
            Some(j) => format!("data of cluster {c}, sector {s}, in {}", file_name(b.files[j].id)),
            None => format!("data of cluster {c}, sector {s}"),
        },
        Place::Past => format!("place {lba}"),
    }
}

/// The rows that a sector names, by start and length or by name, as another directory would.
fn named(b: &Before, d: &Sector) -> Vec<usize> {
    let is_slot = |e: &&[u8]| e[0] != 0 && e[0] != 0xE5 && e[11] & 0x08 == 0;
    let file = |e: &[u8]| {
        let (start, size) = (u16::from_le_bytes([e[26], e[27]]), u32::from_le_bytes([e[28], e[29], e[30], e[31]]));
        b.files.iter().position(|f| (f.vstart, f.vsize) == (start, size) && size > 0 || slot_name(e) == format!("\"{}\"", file_name(f.id)))
    };
    d.chunks(32).filter(is_slot).filter_map(file).collect()
}

/// Of a file whose slot would change: is it turned, its first byte to 0xE5 and nothing else but dates.
fn turns(g: &[u8], d: &[u8]) -> bool {
    let is_date = |i: usize| matches!(i, 0x0D..=0x13 | 0x16..=0x19);
    d[0] == 0xE5 && (1..32).all(|i| g[i] == d[i] || is_date(i))
}

/// The rows that a refused sector concerns, each with how.
pub fn concerned(b: &Before, lba: u32, g: &Sector, d: &Sector) -> Vec<(usize, How)> {
    let names = || named(b, d).into_iter().map(|j| (j, How::Names));
    let mut rows: Vec<(usize, How)> = match place(lba) {
        Place::Fat(s) => {
            let how = |j: usize| if kept_entry(b, j, s, d).is_none() { How::Zeroes } else { How::Entries };
            changed_entries(s, g, d).into_iter().filter_map(|(c, _)| file_of(b, c)).map(|j| (j, how(j))).collect()
        }
        Place::Directory(_, kind, s) => {
            let how = |i: usize| if turns(&g[i * 32..i * 32 + 32], &d[i * 32..i * 32 + 32]) { How::Turns } else { How::Slot };
            changed_slots(g, d).into_iter().filter_map(|i| Some((file_in(b, kind, s * 16 + i as u32)?, how(i)))).collect()
        }
        Place::Data(c, _) => file_of(b, c).into_iter().map(|j| (j, How::Data)).chain(names()).collect(),
        Place::Root(_) => names().collect(),
        _ => vec![],
    };
    rows.dedup();
    rows
}

/// The marks that a call set.
fn marks(b: &Before, after: &[File]) -> Vec<String> {
    let gained = |bit: u16, what: &str| -> Vec<String> {
        b.files.iter().zip(after).filter(|(x, y)| x.id & bit == 0 && y.id & bit != 0).map(|(x, _)| format!("{} {what}", file_name(x.id))).collect()
    };
    [gained(0x1000, "turned"), gained(0x2000, "freed"), gained(0x8000, "named elsewhere")].concat()
}

/// A line's words, and whether marks were set; none where nothing was judged.
pub fn told(call: &Call, answer: &Answer, b: &Before, after: &Session) -> Option<(String, bool)> {
    let refused = |n: u8| format!("refused, {n}: {}", refusal(n));
    let text = match (call, answer) {
        (Call::Write { lba, shown, written, .. }, Answer::Number(n)) => {
            let what = content(b, *n, *lba, shown, written);
            let marks = marks(b, &after.files);
            return Some(match (n, marks.is_empty(), shown == written) {
                (0, true, true) => (format!("{what}, as shown: taken"), false),
                (0, true, false) => (format!("{what}: taken"), false),
                (0, false, _) => (format!("{what}: taken; {}", some(marks)), true),
                _ => (format!("{what}: {}", refused(*n)), false),
            });
        }
        (Call::Start { files, .. }, Answer::Number(0)) => format!("a start with {}: taken", files_told(files.len())),
        (Call::Gone(row), Answer::Number(0)) => format!("{} is reported gone", file_name(b.files[*row].id)),
        (Call::Start { files, .. }, Answer::Number(n)) => format!("a start with {}: {}", files_told(files.len()), refused(*n)),
        (Call::Gone(row), Answer::Number(n)) => format!("a report of row {row}: {}", refused(*n)),
        (_, Answer::Number(n)) => refused(*n),
        (_, Answer::Ended(e)) => match (e.no, e.ended) {
            (0, 0) => return None,
            (0, 1) if !e.had => return None,
            (0, 1) => format!("the session is released; {} handed", after.handed().len()),
            (0, _) => "the release is put off: an update isn't decided".to_string(),
            (n, _) => refused(n),
        },
        (_, Answer::Handed(rows)) => format!(
            "handed: {}",
            if rows.is_empty() { "none".to_string() } else { some(rows.iter().map(|&j| file_name(after.files[j].id)).collect()) }
        ),
        _ => return None,
    };
    Some((text, true))
}
