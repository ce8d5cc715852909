//! The mixer's drive served to a computer over NBD on 127.0.0.1, each written sector judged by the proved library.
mod mixer;
mod nbd;
mod shown;
mod trial;

use mixer::Mixer;
use std::fs::File;
use std::io::{BufWriter, ErrorKind};
use std::net::TcpListener;

const USAGE: &str = "demo serve [PORT [RECORDING]]   serve the drive, computer after computer, and record what each does, in a new file each
demo try                        serve it to mtools: a file deleted, an update copied, another renamed, and what was handed";

/// A file that isn't there yet, so that no earlier recording is lost: the name given, else with a number before its ending.
fn fresh(name: &str) -> std::io::Result<(File, String)> {
    let (stem, ending) = name.rsplit_once('.').unwrap_or((name, "txt"));
    let mut path = name.to_string();
    for n in 2.. {
        match File::create_new(&path) {
            Err(e) if e.kind() == ErrorKind::AlreadyExists => path = format!("{stem}-{n}.{ending}"),
            made => return made.map(|f| (f, path)),
        }
    }
    unreachable!("some number is free")
}

/// One computer after another; each gets a fresh session and a recording of its own.
fn serve(port: u16, recording: &str) -> std::io::Result<()> {
    let listener = TcpListener::bind(("127.0.0.1", port))?;
    println!("the drive is at nbd://127.0.0.1:{port}");
    loop {
        let (stream, _) = listener.accept()?;
        let (file, path) = fresh(recording)?;
        println!("a computer is here; what it does goes to {path}");
        let mut mixer = Mixer::new(Box::new(BufWriter::new(file)));
        if let Err(e) = nbd::serve(stream, &mut mixer) {
            println!("the computer is gone: {e}");
        }
        println!("handed: {}", told(mixer.ends()));
    }
}

pub fn told(handed: Vec<String>) -> String {
    if handed.is_empty() {
        "none".to_string()
    } else {
        handed.join(", ")
    }
}

fn main() {
    let args: Vec<String> = std::env::args().skip(1).collect();
    let words: Vec<&str> = args.iter().map(String::as_str).collect();
    let done = match words[..] {
        ["serve"] => serve(10_809, "recording.txt"),
        ["serve", port] if port.parse::<u16>().is_ok() => serve(port.parse().unwrap(), "recording.txt"),
        ["serve", port, recording] if port.parse::<u16>().is_ok() => serve(port.parse().unwrap(), recording),
        ["try"] => trial::run(),
        _ => {
            eprintln!("{USAGE}");
            std::process::exit(2);
        }
    };
    if let Err(e) = done {
        eprintln!("{e}");
        std::process::exit(1);
    }
}
