//! Calls in the line form of the recordings (docs/RECORDING.md).
use bindings::{File, Rec, Sector, St};

/// One call. A sector that is written stands beside the one shown.
#[derive(Clone, Debug)]
pub enum Call {
    Medium {
        entries: usize,
        bytes: usize,
        fill: u8,
    },
    Fill {
        value: u16,
        from: usize,
        to: usize,
    },
    Entries {
        at: usize,
        values: Vec<u16>,
    },
    Data {
        at: usize,
        bytes: Vec<u8>,
    },
    Lend {
        entries: usize,
        bytes: usize,
    },
    Start {
        first: u32,
        files: Vec<File>,
    },
    Rw(bool),
    Write {
        lba: u32,
        busy: bool,
        shown: Box<Sector>,
        written: Box<Sector>,
    },
    Poll {
        clock: u64,
        mounted: bool,
    },
    Release,
    ReleaseAll {
        reset: bool,
    },
    BusReset,
    ModeReset,
    SetReadOnly(bool),
    Gone(usize),
    Handed,
    State,
    /// The recording's end, and how many calls stand before it.
    End(usize),
    /// A part of the state set directly, for corners that no call reaches.
    Set(Direct),
}

#[derive(Clone, Debug)]
pub enum Direct {
    Pair(usize, u16, u16),
    Record(usize, Rec),
    Slot(usize, St),
    Field(String, u64),
}

fn num<T: std::str::FromStr>(w: &str, what: &str) -> Result<T, String> {
    let digits = !w.is_empty() && w.bytes().all(|b| b.is_ascii_digit());
    digits.then(|| w.parse().ok()).flatten().ok_or(format!("{w:?} isn't a {what}"))
}

fn hex(w: &str) -> Result<Vec<u8>, String> {
    let digit = |d: u8| (d as char).to_digit(16).map(|v| v as u8);
    let pair = |p: &[u8]| Some(digit(p[0])? << 4 | digit(*p.get(1)?)?);
    w.as_bytes()
        .chunks(2)
        .map(pair)
        .collect::<Option<Vec<u8>>>()
        .ok_or(format!("{:?} isn't bytes in hexadecimal digits", w.chars().take(40).collect::<String>()))
}

fn flag(w: &str, what: &str) -> Result<bool, String> {
    match w {
        "0" => Ok(false),
        "1" => Ok(true),
        _ => Err(format!("the {what} is {w:?}, neither 0 nor 1")),
    }
}

/// 1,024 hex digits, `z` (zeros) or `=` (as shown); then, after `@`, bytes that differ: OFFSET:HEX with commas between.
fn sector(w: &str, shown: Option<&Sector>) -> Result<Sector, String> {
    let (base, edits) = w.split_once('@').map_or((w, None), |(b, e)| (b, Some(e)));
    let mut s = match (base, shown) {
        ("z", _) => [0; 512],
        ("=", Some(g)) => *g,
        ("=", None) => return Err("the shown sector can't be `=`".to_string()),
        _ => hex(base)?.try_into().map_err(|b: Vec<u8>| format!("a sector has {} bytes, not 512", b.len()))?,
    };
    for e in edits.iter().flat_map(|e| e.split(',')) {
        let (at, bytes) = e.split_once(':').filter(|(_, b)| !b.is_empty()).ok_or(format!("{e:?} isn't an offset, a colon and bytes"))?;
        let (at, bytes) = (num::<usize>(at, "offset")?, hex(bytes)?);
        s.get_mut(at..at + bytes.len()).ok_or(format!("{e:?} goes past the sector's end"))?.copy_from_slice(&bytes);
    }
    Ok(s)
}

/// A row: id:slot:vstart:src:ssize:vsize.
fn row(w: &str) -> Result<File, String> {
    let f: Vec<&str> = w.split(':').collect();
    let [id, slot, vstart, src, ssize, vsize] = f[..] else { return Err(format!("{w:?} isn't a row of six numbers")) };
    let (id, slot, vstart, src) = (num(id, "file id")?, num(slot, "directory slot")?, num(vstart, "start cluster")?, num(src, "source cluster")?);
    Ok(File { id, slot, vstart, src, ssize: num(ssize, "source size")?, vsize: num(vsize, "size")? })
}

fn write(place: &str, busy: &str, mounted: &str, shown: &str, written: &str) -> Result<Call, String> {
    flag(mounted, "mounted flag")?;
    let g = sector(shown, None)?;
    let d = sector(written, Some(&g))?;
    Ok(Call::Write { lba: num(place, "place")?, busy: flag(busy, "busy flag")?, shown: Box::new(g), written: Box::new(d) })
}

fn poll(clock: &str, busy: &str, mounted: &str) -> Result<Call, String> {
    flag(busy, "busy flag")?;
    Ok(Call::Poll { clock: num(clock, "clock")?, mounted: flag(mounted, "mounted flag")? })
}

fn fill(v: &str, from: &str, to: &str) -> Result<Call, String> {
    let (value, from, to) = (num(v, "value")?, num(from, "entry")?, num(to, "entry")?);
    if from > to {
        return Err(format!("entries from {from} to before {to} are none"));
    }
    Ok(Call::Fill { value, from, to })
}

fn place(w: &str, places: usize) -> Result<usize, String> {
    num(w, "place").and_then(|i| if i < places { Ok(i) } else { Err(format!("there are {places} places, and {i} isn't one")) })
}

fn direct(name: &str, a: &[&str]) -> Result<Option<Call>, String> {
    Ok(Some(Call::Set(match (name, a) {
        ("pair", [i, c, v]) => Direct::Pair(place(i, bindings::NPAIR)?, num(c, "cluster")?, num(v, "value")?),
        ("rec", [i, slot, e]) => {
            let e = hex(e)?.try_into().map_err(|_| "a slot isn't 32 bytes")?;
            Direct::Record(place(i, bindings::NREC)?, Rec { slot: num(slot, "slot")?, e })
        }
        ("slot", [i, c, sealed, ro, map, blocks @ ..]) => {
            let blk: Vec<u16> = blocks.iter().map(|b| num(b, "block")).collect::<Result<_, _>>()?;
            let blk = blk.try_into().map_err(|_| "a staging slot has eight blocks")?;
            Direct::Slot(
                place(i, bindings::NST)?,
                St { c: num(c, "cluster")?, sealed: flag(sealed, "sealed flag")?, ro: num(ro, "byte")?, map: num(map, "map")?, blk },
            )
        }
        ("set", [field, v]) => {
            let most = match *field {
                "hint" | "ver" | "fat1" | "ok" | "refused" | "busy" => u32::MAX as u64,
                "now_ms" | "last" => u64::MAX,
                "boot" => 255,
                "staging" | "session" => 1,
                _ => return Err(format!("no field {field:?} is set so")),
            };
            let v: u64 = num(v, "number")?;
            Direct::Field(field.to_string(), if v <= most { v } else { return Err(format!("{field} is {most} at most")) })
        }
        _ => return Err(format!("no such call, or not with {} words after it: {name:?}", a.len())),
    })))
}

/// A line's text: without the carriage return that some systems end a line with, and without the byte order mark that some begin a file with.
pub fn text(line: &[u8]) -> Result<&str, String> {
    let line = line.strip_suffix(b"\r").unwrap_or(line);
    let line = line.strip_prefix(b"\xEF\xBB\xBF").unwrap_or(line);
    std::str::from_utf8(line).map_err(|_| "the line isn't text".to_string())
}

/// The call of a line; none of a remark or a blank line.
pub fn parse(line: &str) -> Result<Option<Call>, String> {
    if line.starts_with('#') || line.trim().is_empty() {
        return Ok(None);
    }
    let mut words = line.split(' ');
    let name = words.next().unwrap_or("");
    let a: Vec<&str> = words.collect();
    Ok(Some(match (name, &a[..]) {
        ("medium", [n, len, fill]) => {
            Call::Medium { entries: num(n, "number of entries")?, bytes: num(len, "number of bytes")?, fill: num(fill, "byte")? }
        }
        ("mfill", [v, from, to]) => fill(v, from, to)?,
        ("mfat", [at, values @ ..]) => {
            Call::Entries { at: num(at, "entry")?, values: values.iter().map(|v| num(v, "value")).collect::<Result<_, _>>()? }
        }
        ("mdata", [at, bytes]) => Call::Data { at: num(at, "offset")?, bytes: hex(bytes)? },
        ("lend", [n, len]) => Call::Lend { entries: num(n, "number of entries")?, bytes: num(len, "number of bytes")? },
        ("start", [first, rows @ ..]) => {
            Call::Start { first: num(first, "first session cluster")?, files: rows.iter().map(|w| row(w)).collect::<Result<_, _>>()? }
        }
        ("rw", [on]) => Call::Rw(flag(on, "mode")?),
        ("write", [p, busy, mounted, shown, written]) => write(p, busy, mounted, shown, written)?,
        ("poll", [clock, busy, mounted]) => poll(clock, busy, mounted)?,
        ("release", []) => Call::Release,
        ("release_all", [reset]) => Call::ReleaseAll { reset: flag(reset, "reset flag")? },
        ("bus_reset", []) => Call::BusReset,
        ("bus_reset_w", []) => Call::ModeReset,
        ("set_read_only", [on]) => Call::SetReadOnly(flag(on, "mode")?),
        ("gone", [j]) => Call::Gone(num(j, "row")?),
        ("handed", []) => Call::Handed,
        ("state", []) => Call::State,
        ("end", [n]) => Call::End(num(n, "number of calls")?),
        _ => return direct(name, &a),
    }))
}
