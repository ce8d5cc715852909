//! What vwrite.rs and vdisk.rs call of files that are not given: the medium is memory, the flags are set by the comparison.
use std::sync::atomic::{AtomicBool, AtomicU32, AtomicU8, Ordering::Relaxed};

static BUSY: AtomicBool = AtomicBool::new(false);
static MOUNTED: AtomicBool = AtomicBool::new(false);
static NUMBER: AtomicU8 = AtomicU8::new(0);
static STALE: AtomicU32 = AtomicU32::new(0);

pub fn set_busy(on: bool) {
    BUSY.store(on, Relaxed);
}

pub fn set_mounted(on: bool) {
    MOUNTED.store(on, Relaxed);
}

pub fn set_number(n: u8) {
    NUMBER.store(n, Relaxed);
}

pub fn number() -> u8 {
    NUMBER.load(Relaxed)
}

pub fn take_stale() -> u32 {
    STALE.swap(0, Relaxed)
}

pub mod msc {
    use std::sync::atomic::{AtomicBool, Ordering::Relaxed};
    /// Always on: `poll` ends after its quiet release.
    pub static HOST_WRITING: AtomicBool = AtomicBool::new(true);
    pub fn host_mounted() -> bool {
        super::MOUNTED.load(Relaxed)
    }
    pub trait BlockDevice {
        fn present(&self) -> bool;
        fn block_size(&self) -> u32;
        fn block_count(&self) -> u32;
        fn read_only(&self) -> bool;
        fn gates_writes(&self) -> bool;
        fn write_error(&self) -> u8;
        fn product(&self) -> &'static [u8; 16];
        fn media_change_immediate(&self) -> bool;
        fn read_block(&mut self, lba: u32, buf: &mut [u8]) -> bool;
        fn write_block(&mut self, lba: u32, buf: &[u8]) -> bool;
        fn read_busy(&self, lba: u32, n: u32) -> bool;
        fn read_wait(&mut self, lba: u32) -> bool;
        fn take_media_changed(&mut self) -> bool;
    }
}

pub mod upload {
    use super::{fatren::Volume, msc::BlockDevice};
    /// Bytes of an update file at most (document 01).
    pub const MAX: u32 = 638_988;
    pub fn scpi_busy() -> bool {
        false
    }
    /// The first entry of 0 from the hint, which then stands past it; docs/DECISIONS.md has what is decided here.
    pub fn next_free(_: &mut dyn BlockDevice, _: &Volume, hint: &mut u32, _: &mut [u8; 4096]) -> Result<u16, ()> {
        let fat = unsafe { &(&*std::ptr::addr_of!(crate::medium::FAT))[..crate::medium::LENT.0] };
        let from = (*hint).max(2) as usize;
        match (from..fat.len()).find(|&i| fat[i] == 0) {
            Some(i) => {
                *hint = i as u32 + 1;
                Ok(i as u16)
            }
            None => {
                *hint = (*hint).max(fat.len() as u32);
                Err(())
            }
        }
    }
    pub fn link_named(_: &mut dyn BlockDevice, _: &[u16], _: u32, _: &[u8; 11], _: u8) -> Result<(), ()> {
        Err(())
    }
    pub fn commit_on(_: &mut dyn BlockDevice, _: &[u16], _: u32) -> Result<(), ()> {
        Err(())
    }
}

pub mod fatren {
    use super::msc::BlockDevice;
    pub struct Volume {
        pub spc: u32,
        pub root_blocks: u32,
        pub root_start: u32,
    }
    impl Volume {
        pub fn clba(&self, c: u32) -> u32 {
            c
        }
    }
    pub fn parse_bpb(_: &[u8], _: u32) -> Option<Volume> {
        crate::medium::whole().then_some(Volume { spc: 1, root_blocks: 0, root_start: 0 })
    }
    pub fn verify(_: &mut dyn BlockDevice, _: u32, _: &[u8; 4096], _: &mut [u8; 4096]) -> bool {
        true
    }
    /// Stays outside (document 01).
    pub fn header_valid(_: &[u8; 12]) -> bool {
        true
    }
    pub fn delete_updates(_: &mut dyn BlockDevice, _: &mut [u8; 4096], _: &mut [u8; 4096]) -> Option<()> {
        None
    }
    pub fn free_chain(_: &mut dyn BlockDevice, _: &Volume, _: u32, _: &mut [u8; 4096], _: &mut [u8; 4096], _: &mut [u8; 4096]) -> (bool, u32) {
        (false, 0)
    }
}

pub mod csvlog {
    pub enum GErr {
        Busy,
    }
    pub fn writing() -> bool {
        super::BUSY.load(super::Relaxed)
    }
    pub fn delete_on(_: &mut dyn super::msc::BlockDevice, _: &[u8; 11]) -> Result<(), GErr> {
        Err(GErr::Busy)
    }
}

pub mod screenshot {
    pub fn busy() -> bool {
        false
    }
}

pub mod calbackup {
    pub const FW_BASE: u32 = 0x0800_8000;
    pub const FW_MAX_BODY: usize = 0;
    pub const FILES: [([u8; 11], u32, u32); 1] = [(*b"NONE    BIN", 0, 0)];
    static mut SCRATCH: [[u8; 4096]; 3] = [[0; 4096]; 3];
    pub fn scratch() -> [&'static mut [u8; 4096]; 3] {
        let [a, b, c] = unsafe { &mut *std::ptr::addr_of_mut!(SCRATCH) };
        [a, b, c]
    }
    pub fn crc32_upd(c: u32, _: &[u8]) -> u32 {
        c
    }
    pub trait Source {}
    #[derive(Clone, Copy)]
    pub struct FwFile<'a>(&'a [u8]);
    impl<'a> FwFile<'a> {
        pub fn from_flash(_: &'a [u8]) -> Option<FwFile<'a>> {
            None
        }
        pub fn size(&self) -> u32 {
            0
        }
        pub fn crc(&self) -> u32 {
            0
        }
        pub fn header(&self) -> [u8; 12] {
            [0; 12]
        }
        pub fn fill_with(&self, _: u32, _: &mut [u8], _: fn(&[u8], usize, &mut [u8]) -> bool) -> bool {
            false
        }
    }
    /// A prefix, three digits, an extension.
    pub fn numbered_name(pre: &[u8], n: u16, ext: &[u8; 3]) -> [u8; 11] {
        let mut out = [b' '; 11];
        out[..pre.len()].copy_from_slice(pre);
        for (i, d) in [n / 100, n / 10 % 10, n % 10].into_iter().enumerate() {
            out[pre.len() + i] = b'0' + (d % 10) as u8;
        }
        out[8..].copy_from_slice(ext);
        out
    }
}

pub mod dlog {
    use std::sync::atomic::Ordering::Relaxed;
    pub const DIR_LOGS: [u8; 11] = *b"LOGS       ";
    pub const DIR_SCOPE: [u8; 11] = *b"SCOPE      ";
    pub const DIR_SHOTS: [u8; 11] = *b"SHOTS      ";
    pub trait Raw {
        fn read_at(&mut self, addr: u32, buf: &mut [u8]) -> bool;
    }
    pub trait Src {}
    /// Where cluster 2 begins, and bytes of a cluster.
    #[derive(Clone, Copy)]
    pub struct Geo {
        pub data: u32,
        pub cb: u32,
    }
    pub struct FnRaw;
    impl Raw for FnRaw {
        fn read_at(&mut self, addr: u32, buf: &mut [u8]) -> bool {
            let Some(p) = crate::medium::part(addr as usize, buf.len()) else { return false };
            buf.copy_from_slice(p);
            true
        }
    }
    pub fn disk() -> FnRaw {
        FnRaw
    }
    pub fn geometry(_: &mut dyn Raw) -> Option<Geo> {
        crate::medium::whole().then_some(Geo { data: 0, cb: 4096 })
    }
    pub fn set_stale() {
        super::STALE.fetch_add(1, Relaxed);
    }
    pub fn clear_stale() {}
    pub fn dlg_prefix(_: &[u8; 11]) -> Option<&'static [u8]> {
        None
    }
    pub fn dir_start(_: &mut dyn Raw, _: &Geo, _: &[u8; 11]) -> Option<u32> {
        None
    }
    pub fn each_entry(_: &mut dyn Raw, _: &Geo, _: Option<u32>, _: &mut dyn FnMut(&[u8]) -> bool) -> bool {
        false
    }
    pub struct FatFile<R: Raw>(std::marker::PhantomData<R>);
    impl<R: Raw> FatFile<R> {
        pub fn new(_: R, _: Geo, _: u32, _: u32) -> FatFile<R> {
            FatFile(std::marker::PhantomData)
        }
        pub fn read(&mut self, _: u32, buf: &mut [u8]) -> bool {
            buf.fill(0);
            true
        }
    }
    impl<R: Raw> Src for FatFile<R> {}
    pub struct Info {
        pub csv: u32,
    }
    pub struct Gen<S: Src> {
        pub info: Info,
        src: std::marker::PhantomData<S>,
    }
    impl<S: Src> Gen<S> {
        pub fn open(_: S, _: u32) -> Option<Gen<S>> {
            None
        }
        pub fn read(&mut self, _: u32, buf: &mut [u8]) {
            buf.fill(0);
        }
    }
    pub struct Slot<K>(Option<K>, Option<Gen<FatFile<FnRaw>>>);
    impl<K: Copy> Slot<K> {
        pub const fn new() -> Slot<K> {
            Slot(None, None)
        }
        pub fn peek(&self) -> Option<(K, u32)> {
            None
        }
        pub fn get(&mut self, _: K, open: impl FnOnce() -> Option<Gen<FatFile<FnRaw>>>) -> Option<&mut Gen<FatFile<FnRaw>>> {
            self.1 = open();
            self.1.as_mut()
        }
    }
}

pub mod fastlog {
    pub const MIR_FREE: u8 = 0;
    pub const MIR_BEHIND: u8 = 1;
}

pub mod ident {
    pub const VERSION: &str = "0";
}

pub mod wdt {
    pub fn kick_if_feeding() {}
}

pub mod clock {
    pub const HCLK_HZ: u32 = 1000;
}

pub mod hy3131 {
    pub fn streaming() -> bool {
        false
    }
}
