//! The server's side of the NBD protocol, as far as a client needs it to read and write an export.
use crate::mixer::Mixer;
use bindings::TOTAL;
use std::io::{Error, ErrorKind, Read, Result, Write};
use std::net::TcpStream;

const SIZE: u64 = TOTAL as u64 * 512;
const OPTION_MAGIC: u64 = 0x4948_4156_454F_5054;
const REPLY_MAGIC: u64 = 0x0003_E889_0455_65A9;
/// The export has flags, and takes a flush.
const FLAGS: u16 = 1 | 4;
const EPERM: u32 = 1;
const EINVAL: u32 = 22;

fn u16_of(s: &mut TcpStream) -> Result<u16> {
    let mut b = [0; 2];
    s.read_exact(&mut b).map(|_| u16::from_be_bytes(b))
}

fn u32_of(s: &mut TcpStream) -> Result<u32> {
    let mut b = [0; 4];
    s.read_exact(&mut b).map(|_| u32::from_be_bytes(b))
}

fn u64_of(s: &mut TcpStream) -> Result<u64> {
    let mut b = [0; 8];
    s.read_exact(&mut b).map(|_| u64::from_be_bytes(b))
}

fn reply(s: &mut TcpStream, option: u32, kind: u32, data: &[u8]) -> Result<()> {
    let mut out = REPLY_MAGIC.to_be_bytes().to_vec();
    out.extend([option, kind, data.len() as u32].iter().flat_map(|n| n.to_be_bytes()));
    out.extend(data);
    s.write_all(&out)
}

/// The options; true once the export is entered.
fn negotiated(s: &mut TcpStream) -> Result<bool> {
    s.write_all(b"NBDMAGICIHAVEOPT\0\x03")?;
    let no_zeroes = u32_of(s)? & 2 != 0;
    loop {
        if u64_of(s)? != OPTION_MAGIC {
            return Err(Error::new(ErrorKind::InvalidData, "no option"));
        }
        let (option, len) = (u32_of(s)?, u32_of(s)?);
        let mut data = vec![0; len.min(65_536) as usize];
        s.read_exact(&mut data)?;
        let mut export = SIZE.to_be_bytes().to_vec();
        export.extend(FLAGS.to_be_bytes());
        match option {
            1 => {
                export.resize(if no_zeroes { 10 } else { 134 }, 0);
                return s.write_all(&export).map(|_| true);
            }
            2 => return reply(s, option, 1, &[]).map(|_| false),
            3 => {
                reply(s, option, 2, &[0, 0, 0, 0])?;
                reply(s, option, 1, &[])?;
            }
            6 | 7 => {
                reply(s, option, 3, &[&[0, 0][..], &export].concat())?;
                // Whole sectors only: the smallest, the preferred and the largest transfer.
                let sizes: Vec<u8> = [512u32, 4096, 1 << 20].iter().flat_map(|n| n.to_be_bytes()).collect();
                reply(s, option, 3, &[&[0, 3][..], &sizes].concat())?;
                reply(s, option, 1, &[])?;
                if option == 7 {
                    return Ok(true);
                }
            }
            _ => reply(s, option, 0x8000_0001, &[])?,
        }
    }
}

fn read(mixer: &Mixer, from: u64, len: u32) -> Vec<u8> {
    (0..len as u64 / 512).flat_map(|i| mixer.shown((from / 512 + i) as u32)).collect()
}

/// The sectors in rising order, up to the first that is refused.
fn write(mixer: &mut Mixer, from: u64, data: &[u8]) -> u32 {
    for (i, sector) in data.chunks_exact(512).enumerate() {
        let lba = (from / 512) as u32 + i as u32;
        let number = mixer.write(lba, sector.try_into().unwrap());
        if number != 0 {
            println!("sector {lba} is refused: {number}");
            return EPERM;
        }
    }
    0
}

/// One computer, until it goes.
pub fn serve(mut s: TcpStream, mixer: &mut Mixer) -> Result<()> {
    s.set_nodelay(true)?;
    if !negotiated(&mut s)? {
        return Ok(());
    }
    loop {
        if u32_of(&mut s)? != 0x2560_9513 {
            return Err(Error::new(ErrorKind::InvalidData, "no request"));
        }
        let (_, kind) = (u16_of(&mut s)?, u16_of(&mut s)?);
        let (handle, from, len) = (u64_of(&mut s)?, u64_of(&mut s)?, u32_of(&mut s)?);
        let fits = from % 512 == 0 && len % 512 == 0 && len <= 32 << 20 && from.checked_add(len as u64).is_some_and(|end| end <= SIZE);
        let mut data = vec![];
        let error = match kind {
            0 if fits => {
                data = read(mixer, from, len);
                0
            }
            1 => {
                let mut written = vec![0; len as usize];
                s.read_exact(&mut written)?;
                if fits {
                    write(mixer, from, &written)
                } else {
                    EINVAL
                }
            }
            2 => return Ok(()),
            3 => 0,
            _ => EINVAL,
        };
        let mut out = 0x6744_6698u32.to_be_bytes().to_vec();
        out.extend(error.to_be_bytes());
        out.extend(handle.to_be_bytes());
        out.extend(data);
        s.write_all(&out)?;
    }
}
