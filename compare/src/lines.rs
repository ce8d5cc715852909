//! Calls in the line form of the recordings, made on both sides.
use crate::both::Both;
use crate::tables::acceptable;
use bindings::calls::End;
use bindings::{File, State};
use line_form::{Call, Direct};
use std::fs;
use std::process::exit;

/// What a line answers.
enum Said {
    Nothing,
    Number(u8),
    Ended(End),
    Rows(Vec<usize>),
    State,
}

/// The call made on both sides.
fn made(both: &mut Both, call: Call) -> Said {
    match call {
        Call::Medium { entries, bytes, fill } => {
            let (w, files) = (both.w, both.files.clone());
            both.set(w, &files, &vec![0; entries], &vec![fill; bytes]);
            Said::Nothing
        }
        Call::Fill { value, from, to } => {
            (from..to).for_each(|i| both.set_entry(i, value));
            Said::Nothing
        }
        Call::Entries { at, values } => {
            values.into_iter().enumerate().for_each(|(k, v)| both.set_entry(at + k, v));
            Said::Nothing
        }
        Call::Data { at, bytes } => {
            both.set_area(at, &bytes);
            Said::Nothing
        }
        Call::Lend { entries, bytes } => {
            both.lend(entries, bytes);
            Said::Nothing
        }
        Call::Start { first, files } => Said::Number(both.start(&files, first, acceptable(&files, first))),
        Call::Write { lba, busy, shown, written } => Said::Number(both.write(lba, &shown, &written, busy)),
        Call::Gone(row) => Said::Number(both.gone(row)),
        Call::Handed => Said::Rows((0..both.files.len()).filter(|&j| both.files[j].id & 0x7000 == 0x3000).collect()),
        Call::State => Said::State,
        Call::Set(direct) => {
            let w = set(both.w, direct);
            let files = both.files.clone();
            both.set_session(w, &files);
            Said::Nothing
        }
        _ => of_session(both, call),
    }
}

fn of_session(both: &mut Both, call: Call) -> Said {
    let end = match call {
        Call::Poll { clock, mounted } => both.poll(clock, mounted),
        Call::Release => both.release(),
        Call::ReleaseAll { reset } => both.release_all(reset),
        Call::BusReset => both.bus_reset(),
        Call::Rw(on) => {
            both.set_read_only(!on);
            both.mode_reset();
            return Said::Nothing;
        }
        Call::SetReadOnly(on) => {
            both.set_read_only(on);
            return Said::Nothing;
        }
        _ => {
            both.mode_reset();
            return Said::Nothing;
        }
    };
    Said::Ended(end)
}

fn set(mut w: State, direct: Direct) -> State {
    match direct {
        Direct::Pair(i, c, v) => w.pair[i] = bindings::Pair { c, v },
        Direct::Record(i, r) => w.rec[i] = r,
        Direct::Slot(i, s) => w.st[i] = s,
        Direct::Field(name, v) => match name.as_str() {
            "hint" => w.hint = v as u32,
            "ver" => w.ver = v as u32,
            "fat1" => w.fat1 = v as u32,
            "ok" => w.n.ok = v as u32,
            "refused" => w.n.refused = v as u32,
            "busy" => w.n.busy = v as u32,
            "now_ms" => w.now_ms = v,
            "last" => w.last = v,
            "boot" => w.boot = v as u8,
            "staging" => w.staging = v != 0,
            "session" => w.session = v != 0,
            _ => {}
        },
    }
    w
}

fn call(both: &mut Both, line: &str) -> Result<Said, String> {
    Ok(line_form::parse(line)?.map_or(Said::Nothing, |c| made(both, c)))
}

/// Does what was said agree with the recorded remark of the Rust's answer.
fn agrees(said: &Said, remark: &str) -> bool {
    match (said, remark) {
        (Said::Number(n), _) if remark.contains("num=") => {
            remark.split(' ').any(|w| w == format!("num={n}")) && remark.starts_with("ok") == (*n == 0)
        }
        (Said::Number(n), "ok") => *n == 0,
        (Said::Rows(rows), "none") => rows.is_empty(),
        (Said::Rows(rows), _) => rows.iter().map(|j| j.to_string()).collect::<Vec<_>>().join(" ") == remark,
        (Said::Ended(e), "true" | "false") => e.had == (remark == "true"),
        (Said::Ended(e), "ok") => e.no == 0,
        (Said::Nothing | Said::State, "ok") => true,
        _ => false,
    }
}

fn recording(both: &mut Both, path: &std::path::Path) -> Result<(u64, u64), String> {
    let text = fs::read_to_string(path).map_err(|e| e.to_string())?;
    let mut last = Said::Nothing;
    let (mut calls, mut checked) = (0, 0);
    let mut taken_unless_told: Option<usize> = None;
    for (i, line) in text.lines().enumerate() {
        let told = |what: String| format!("{}:{}: {what}", path.display(), i + 1);
        if let Some(remark) = line.strip_prefix("#= ") {
            if !agrees(&last, remark) {
                return Err(told(format!("another answer than recorded: {remark}")));
            }
            checked += 1;
            taken_unless_told = None;
            continue;
        }
        if line.starts_with('#') {
            continue;
        }
        if let Some(n) = taken_unless_told {
            return Err(told(format!("the write of line {n} was refused, and recorded as taken")));
        }
        last = call(both, line).map_err(told)?;
        calls += 1;
        taken_unless_told = matches!(last, Said::Number(1..)).then_some(i + 1);
    }
    match taken_unless_told {
        Some(n) => Err(format!("{}: the write of line {n} was refused, and recorded as taken", path.display())),
        None => Ok((calls, checked)),
    }
}

/// Every recording of a folder: both sides equal, every recorded answer as given.
pub fn recordings(folder: &str) {
    let entries = fs::read_dir(folder).map(|d| d.filter_map(|e| e.ok()).map(|e| e.path()).collect::<Vec<_>>());
    let mut paths: Vec<_> = entries.unwrap_or_default().into_iter().filter(|p| p.extension().is_some_and(|x| x == "txt")).collect();
    paths.sort();
    if paths.is_empty() {
        println!("{folder} has no recordings");
        exit(2);
    }
    let mut both = Both::new();
    let (mut calls, mut checked) = (0, 0);
    for path in &paths {
        let run = std::panic::catch_unwind(std::panic::AssertUnwindSafe(|| recording(&mut both, path)));
        let told = match run {
            Ok(r) => r,
            Err(e) => Err(format!("{}: {}", path.display(), e.downcast_ref::<String>().cloned().unwrap_or_default())),
        };
        match told {
            Ok((n, m)) => {
                calls += n;
                checked += m;
            }
            Err(what) => {
                println!("{what}");
                exit(1);
            }
        }
    }
    println!("{} recordings, {calls} calls on both sides, {checked} recorded answers met", paths.len());
    crate::tell(&both);
}

/// The programs hold a medium of up to 34 entries and 131,072 bytes; a line that reaches past it is bad.
fn held(both: &Both, line: &str) -> Result<(), String> {
    let (entries, bytes) = (both.fat.len(), both.area.len());
    let fits = match line_form::parse(line)? {
        Some(Call::Medium { entries, bytes, .. }) => entries <= 34 && bytes <= 131_072,
        Some(Call::Fill { to, .. }) => to <= entries,
        Some(Call::Entries { at, values }) => at + values.len() <= entries,
        Some(Call::Data { at, bytes: new }) => at + new.len() <= bytes,
        Some(Call::Lend { entries: n, bytes: len }) => n <= entries && len <= bytes,
        _ => true,
    };
    if fits {
        Ok(())
    } else {
        Err("past the medium".to_string())
    }
}

/// What the program over the proved library prints for the same lines; the answers are the Rust's.
pub fn answers(file: &str) {
    let text = fs::read_to_string(file).expect("the file");
    let mut both = Both::new();
    for (i, line) in text.lines().enumerate() {
        if line.starts_with('#') {
            continue;
        }
        match held(&both, line).and_then(|_| call(&mut both, line)) {
            Ok(Said::Nothing) => {}
            Ok(Said::Number(n)) => println!("{} {n}", i + 1),
            Ok(Said::Ended(e)) => println!("{} {} ended {} had {}", i + 1, e.no, e.ended, e.had as u8),
            Ok(Said::Rows(rows)) => println!("handed{}", rows.iter().map(|j| format!(" {j}")).collect::<String>()),
            Ok(Said::State) => print!("{}", shown(&original::state(), &original::table(), original::area())),
            Err(_) => println!("{} bad", i + 1),
        }
    }
}

/// All of the state, the ids and a sum of the data.
fn shown(w: &State, files: &[File], area: &[u8]) -> String {
    let mut s = format!(
        "state rw {} boot {} fat1 {} session {} last {} staging {} stage_t {} hint {} err {} ver {} ok {} refused {} busy {} last_refused {}",
        w.rw as u8,
        w.boot,
        w.fat1,
        w.session as u8,
        w.last,
        w.staging as u8,
        w.stage_t,
        w.hint,
        w.err,
        w.ver,
        w.n.ok,
        w.n.refused,
        w.n.busy,
        w.n.last_refused
    );
    let (d, n) = (&w.done, &w.n);
    s += &format!(" want_rw {} locks {} now_ms {} fw {}", w.want_rw as u8, w.locks as u8, w.now_ms, w.fw);
    s += &format!(" done.slot {} done.start {} done.size {} done.ver {} end_at {}", d.slot, d.start, d.size, d.ver, w.end_at);
    s += &format!(" parks {} purged {} purge {}", w.parks, w.purged as u8, w.purge as u8);
    s += &format!(" deleted {} fw_ok {} fw_bad {} first {}", n.deleted, n.fw_ok, n.fw_bad, w.first);
    s += "\npairs";
    for (i, p) in w.pair.iter().enumerate().filter(|(_, p)| p.c != 0) {
        s += &format!(" {i}:{}:{}", p.c, p.v);
    }
    s += "\nrecords";
    for (i, r) in w.rec.iter().enumerate().filter(|(_, r)| r.slot != 0) {
        s += &format!(" {i}:{}:{}", r.slot, r.e.iter().map(|b| format!("{b:02x}")).collect::<String>());
    }
    s += "\nstaged";
    for (i, x) in w.st.iter().enumerate().filter(|(_, x)| x.c != 0) {
        s += &format!(" {i}:{}:{}:{}:{}", x.c, x.sealed as u8, x.ro, x.map);
        x.blk.iter().for_each(|b| s += &format!(":{b}"));
    }
    s += "\nids";
    files.iter().for_each(|f| s += &format!(" {}", f.id));
    let sum = area.iter().fold(0u64, |h, &b| (h * 257 + b as u64) % 4_294_967_291);
    s + &format!("\ndata {sum}\n")
}
