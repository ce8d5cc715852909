//! The proved judge beside the Rust that it replaces: the same calls to both, everything compared after each.
mod bench;
mod bodies;
mod both;
mod hosts;
mod lines;
mod rng;
mod scenarios;
mod tables;

use both::Both;
use std::panic::{catch_unwind, AssertUnwindSafe};
use std::process::exit;

const USAGE: &str = "compare run [SEED [SCENARIOS]]   scenarios from a seed, every call on both sides
compare replay SEED              one scenario again, by the seed that a difference was told with
compare recordings FOLDER        the recordings of a folder, also against the answers that they hold
compare answers FILE             the Rust's answers to the lines of FILE, as the program `session_corners` prints ours
compare bench                    times of both sides, and their ratio";

fn one(seed: u64, both: &mut Both) -> Result<(), String> {
    catch_unwind(AssertUnwindSafe(|| scenarios::run(seed, both))).map_err(|e| match (e.downcast_ref::<String>(), e.downcast_ref::<&str>()) {
        (Some(told), _) => told.clone(),
        (_, Some(told)) => format!("a panic: {told}"),
        _ => "a panic".to_string(),
    })
}

fn run(seed: u64, scenarios: u64) {
    println!("seed {seed}, {scenarios} scenarios");
    let mut both = Both::new();
    for i in 0..scenarios {
        let s = rng::mix(seed ^ rng::mix(i));
        if let Err(what) = one(s, &mut both) {
            println!("{what}\nagain by: compare replay {s}");
            exit(1);
        }
    }
    tell(&both);
}

/// The counts by call and by number.
fn tell(both: &Both) {
    let c = &both.counts;
    for (call, n) in &c.calls {
        println!("{n:>10} {call}");
    }
    println!("{:>10} calls; by number:", c.calls.values().sum::<u64>());
    for (number, n) in c.numbers.iter().enumerate() {
        println!("{n:>10} {number}");
    }
    println!("{:>10} bodies found valid, {} not, of update files made valid or wrong in one byte", c.valid, c.wrong);
    println!("no difference");
}

fn main() {
    let args: Vec<String> = std::env::args().skip(1).collect();
    let number = |i: usize, or: u64| args.get(i).map_or(or, |s| s.parse().unwrap_or_else(|_| usage()));
    std::panic::set_hook(Box::new(|_| {}));
    match args.first().map(String::as_str) {
        Some("run") => run(number(1, std::process::id() as u64), number(2, 2000)),
        Some("replay") => {
            let mut both = Both::new();
            if let Err(what) = one(number(1, 0), &mut both) {
                println!("{what}");
                exit(1);
            }
            tell(&both);
        }
        Some("recordings") if args.len() == 2 => lines::recordings(&args[1]),
        Some("answers") if args.len() == 2 => lines::answers(&args[1]),
        Some("bench") => bench::run(),
        _ => usage(),
    }
}

fn usage() -> ! {
    eprintln!("{USAGE}");
    exit(2);
}
