//! The drive tried with mtools: it is copied over NBD to an image, mtools change the image, and the sectors that differ go back over NBD.
use crate::mixer::Mixer;
use crate::{nbd, told};
use bindings::TOTAL;
use std::fs::File;
use std::io::{Error, Read, Result, Write};
use std::net::{TcpListener, TcpStream};
use std::path::Path;
use std::process::Command;

/// Clusters past these are free and read as zeros, so the copy leaves them out.
const COPIED: u32 = 541 + 64 * 64;

struct Client(TcpStream);

impl Client {
    fn new(mut s: TcpStream) -> Result<Client> {
        let mut hello = [0; 18];
        s.read_exact(&mut hello)?;
        s.write_all(&3u32.to_be_bytes())?;
        // The export's name is empty.
        s.write_all(&[&b"IHAVEOPT"[..], &1u32.to_be_bytes(), &0u32.to_be_bytes()].concat())?;
        let mut export = [0; 10];
        s.read_exact(&mut export)?;
        Ok(Client(s))
    }

    fn request(&mut self, kind: u16, lba: u32, sectors: u32, data: &[u8]) -> Result<(u32, Vec<u8>)> {
        let mut out = 0x2560_9513u32.to_be_bytes().to_vec();
        out.extend([0, kind].iter().flat_map(|n: &u16| n.to_be_bytes()));
        out.extend([1, lba as u64 * 512].iter().flat_map(|n: &u64| n.to_be_bytes()));
        out.extend((sectors * 512).to_be_bytes());
        out.extend(data);
        self.0.write_all(&out)?;
        if kind == 2 {
            return Ok((0, vec![]));
        }
        let mut head = [0; 16];
        self.0.read_exact(&mut head)?;
        let error = u32::from_be_bytes(head[4..8].try_into().unwrap());
        let mut data = vec![0; if kind == 0 && error == 0 { sectors as usize * 512 } else { 0 }];
        self.0.read_exact(&mut data)?;
        Ok((error, data))
    }
}

fn mtools(image: &Path, words: &[&str]) -> Result<()> {
    println!("{}", words.join(" "));
    let image = image.display().to_string();
    let status = Command::new(words[0]).env("MTOOLS_SKIP_CHECK", "1").args(["-i", &image]).args(&words[1..]).status()?;
    if status.success() {
        Ok(())
    } else {
        Err(Error::other(format!("{}: {status}", words[0])))
    }
}

fn read_image(image: &Path) -> Result<Vec<u8>> {
    let mut bytes = vec![0; COPIED as usize * 512];
    File::open(image)?.read_exact(&mut bytes)?;
    Ok(bytes)
}

/// One command of mtools on the image; the sectors that it changed go to the drive.
fn step(drive: &mut Client, image: &Path, words: &[&str]) -> Result<()> {
    let before = read_image(image)?;
    mtools(image, words)?;
    let after = read_image(image)?;
    let (mut taken, mut refused) = (0, 0);
    for (i, sector) in after.chunks_exact(512).enumerate().filter(|(i, s)| before[i * 512..i * 512 + 512] != **s) {
        match drive.request(1, i as u32, 1, sector)?.0 {
            0 => taken += 1,
            _ => refused += 1,
        }
    }
    println!("  {taken} sectors taken, {refused} refused");
    Ok(())
}

fn client(port: u16, folder: &Path) -> Result<()> {
    let mut drive = Client::new(TcpStream::connect(("127.0.0.1", port))?)?;
    let image = folder.join("drive.img");
    let mut file = File::create(&image)?;
    file.write_all(&drive.request(0, 0, COPIED, &[])?.1)?;
    file.set_len(TOTAL as u64 * 512)?;
    let update = folder.join("DM40FW.BIN");
    std::fs::write(&update, vec![0x5A; 70_000])?;
    step(&mut drive, &image, &["mdel", "::/LOGS/LOG002.CSV"])?;
    step(&mut drive, &image, &["mcopy", &update.display().to_string(), "::/"])?;
    step(&mut drive, &image, &["mren", "::/SHOTS/S001.BMP", "OTHER.BMP"])?;
    drive.request(2, 0, 0, &[]).map(|_| ())
}

pub fn run() -> Result<()> {
    if ["mdel", "mcopy", "mren"].iter().any(|tool| Command::new(tool).arg("--version").output().is_err()) {
        println!("mtools are not installed: nothing was tried");
        return Ok(());
    }
    let folder = std::env::temp_dir().join(format!("mixer-{}", std::process::id()));
    std::fs::create_dir_all(&folder)?;
    let listener = TcpListener::bind(("127.0.0.1", 0))?;
    let port = listener.local_addr()?.port();
    let (place, record) = (folder.clone(), folder.join("recording.txt"));
    let other = std::thread::spawn(move || client(port, &place));
    let mut mixer = Mixer::new(Box::new(std::io::BufWriter::new(File::create(&record)?)));
    nbd::serve(listener.accept()?.0, &mut mixer)?;
    let handed = mixer.ends();
    other.join().map_err(|_| Error::other("the client failed"))??;
    println!("handed: {}", told(handed));
    println!("recorded in {}", record.display());
    std::fs::remove_file(folder.join("drive.img"))
}
