//! Builds the comparison with each wrong edit of the Rust in turn, and tells which of them it notices. One that can't be noticed stands in
//! `equivalent.txt`, with the reason.
use std::collections::BTreeMap;
use std::path::{Path, PathBuf};
use std::process::{exit, Command, Stdio};
use std::sync::atomic::{AtomicUsize, Ordering::Relaxed};
use std::sync::Mutex;
use std::time::Duration;
use std::{env, fs, thread};

const USAGE: &str =
    "edits [--list] [--from N] [WORD]   every edit, or those from the N-th on, or whose name begins with WORD; --list only names them";
const SCENARIOS: &str = "1500";
/// A run that takes so many ticks of a processor, a minute of it, hangs. Time that other programs take doesn't count.
const LIMIT: u64 = 6_000;

#[derive(Clone, Copy, PartialEq, Eq)]
enum Outcome {
    Noticed,
    Equivalent,
    NotBuilt,
    Missed,
}

fn folder() -> PathBuf {
    Path::new(env!("CARGO_MANIFEST_DIR")).join("..")
}

fn texts() -> [String; 2] {
    let from = env::var_os("VWRITE_RUST").map_or_else(|| folder().join("../../shared/docs/src/firmware/src"), PathBuf::from);
    edited::FILES.map(|f| fs::read_to_string(from.join(f)).unwrap_or_else(|e| panic!("{}: {e}", from.join(f).display())))
}

/// Lines `NAME | REASON`.
fn reasons() -> BTreeMap<String, String> {
    let text = fs::read_to_string(folder().join("equivalent.txt")).unwrap_or_default();
    let line = |l: &str| l.rsplit_once(" | ").map(|(a, b)| (a.to_string(), b.to_string()));
    text.lines().filter(|l| !l.starts_with('#')).filter_map(line).collect()
}

/// Ticks of a processor that a running program has taken: fields 14 and 15 of its line, counted behind its name.
fn ticks(pid: u32) -> u64 {
    let line = fs::read_to_string(format!("/proc/{pid}/stat")).unwrap_or_default();
    let fields: Vec<&str> = line.rsplit(')').next().unwrap_or_default().split_whitespace().collect();
    fields.iter().skip(11).take(2).filter_map(|f| f.parse::<u64>().ok()).sum()
}

/// Does the comparison end with a difference; none where the edit doesn't build.
fn notices(n: usize, worker: usize) -> Option<bool> {
    let target = folder().join(format!("../target/edited-{worker}"));
    let built = Command::new("cargo")
        .args(["build", "--profile", "edited", "--quiet", "--offline", "--bin", "compare", "--target-dir"])
        .arg(&target)
        .current_dir(folder())
        .env("COMPARE_EDIT", n.to_string())
        .stderr(Stdio::null())
        .status()
        .expect("cargo");
    if !built.success() {
        return None;
    }
    let mut run = Command::new(target.join("edited/compare"))
        .args(["run", "1", SCENARIOS])
        .stdout(Stdio::null())
        .stderr(Stdio::null())
        .spawn()
        .expect("compare");
    loop {
        if let Some(status) = run.try_wait().expect("compare") {
            return Some(!status.success());
        }
        if ticks(run.id()) > LIMIT {
            run.kill().expect("compare");
            run.wait().expect("compare");
            return Some(true);
        }
        thread::sleep(Duration::from_millis(5));
    }
}

fn main() {
    let args: Vec<String> = env::args().skip(1).collect();
    if args.iter().any(|a| a == "--help") {
        println!("{USAGE}");
        return;
    }
    let by_hand = fs::read_to_string(folder().join("edits.txt")).expect("edits.txt");
    let all = edited::list(&texts(), &by_hand);
    let (mut from, mut begins, mut only_list) = (0, String::new(), false);
    let mut rest = args.iter();
    while let Some(arg) = rest.next() {
        match arg.as_str() {
            "--list" => only_list = true,
            "--from" => from = rest.next().and_then(|n| n.parse().ok()).unwrap_or_else(|| usage()),
            a if a.starts_with('-') => usage(),
            word => begins = word.to_string(),
        }
    }
    let chosen: Vec<usize> = (from..all.len()).filter(|&i| all[i].name.starts_with(&begins)).collect();
    if only_list {
        chosen.iter().for_each(|&i| println!("{i} {}", all[i].name));
        return;
    }
    let reasons = reasons();
    for name in reasons.keys().filter(|n| all.iter().all(|e| e.name != **n)) {
        println!("{name}: told equivalent, but there is no such edit");
    }
    let unknown = reasons.keys().any(|n| all.iter().all(|e| e.name != *n));
    let found = tried(&all, &chosen, &reasons);
    let count = |o: Outcome| found.iter().filter(|(_, f)| *f == o).count();
    println!(
        "{} edits: {} noticed, {} equivalent with a reason, {} don't build, {} not noticed",
        found.len(),
        count(Outcome::Noticed),
        count(Outcome::Equivalent),
        count(Outcome::NotBuilt),
        count(Outcome::Missed)
    );
    exit((unknown || count(Outcome::Missed) > 0) as i32);
}

fn usage() -> ! {
    eprintln!("{USAGE}");
    exit(2);
}

/// Each chosen edit in turn, two at a time.
fn tried(all: &[edited::Edit], chosen: &[usize], reasons: &BTreeMap<String, String>) -> Vec<(usize, Outcome)> {
    let next = AtomicUsize::new(0);
    let found = Mutex::new(vec![]);
    thread::scope(|s| {
        for worker in 0..2 {
            let (next, found) = (&next, &found);
            s.spawn(move || {
                while let Some(&n) = chosen.get(next.fetch_add(1, Relaxed)) {
                    let name = &all[n].name;
                    let (outcome, word) = match (notices(n, worker), reasons.get(name)) {
                        (None, _) => (Outcome::NotBuilt, "doesn't build".to_string()),
                        (Some(true), None) => (Outcome::Noticed, "noticed".to_string()),
                        (Some(true), Some(_)) => (Outcome::Missed, "NOTICED, though told equivalent".to_string()),
                        (Some(false), Some(reason)) => (Outcome::Equivalent, format!("equivalent: {reason}")),
                        (Some(false), None) => (Outcome::Missed, "NOT NOTICED".to_string()),
                    };
                    println!("{n} {name}: {word}");
                    found.lock().unwrap().push((n, outcome));
                }
            });
        }
    });
    found.into_inner().unwrap()
}
