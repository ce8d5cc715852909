//! The medium in memory: FAT entries, and 4,096 bytes for each after the second.
use crate::msc;

pub(crate) static mut FAT: Vec<u16> = Vec::new();
static mut AREA: Vec<u8> = Vec::new();
pub(crate) static mut LENT: (usize, usize) = (0, 0);
static mut DEVICE: Memory = Memory;

pub fn set_medium(fat: &[u16], area: &[u8]) {
    unsafe {
        FAT.clear();
        FAT.extend_from_slice(fat);
        AREA.clear();
        AREA.extend_from_slice(area);
        LENT = (fat.len(), area.len());
        crate::vwrite::set_dev(&mut *std::ptr::addr_of_mut!(DEVICE));
    }
}

pub fn lend(entries: usize, bytes: usize) {
    unsafe { LENT = (entries, bytes) };
}

pub fn area() -> &'static [u8] {
    unsafe { &*std::ptr::addr_of!(AREA) }
}

pub fn set_area(at: usize, bytes: &[u8]) {
    unsafe { AREA[at..at + bytes.len()].copy_from_slice(bytes) };
}

pub fn set_entry(i: usize, v: u16) {
    unsafe { FAT[i] = v };
}

/// Is it 3 to 65,526 entries, and 4,096 bytes for each after the second.
pub(crate) fn whole() -> bool {
    let (n, len) = unsafe { LENT };
    (3..=65_526).contains(&n) && len == (n - 2) * 4096
}

/// Bytes of the medium from cluster 2 on; none of any other medium, nor outside it.
pub(crate) fn part(at: usize, len: usize) -> Option<&'static mut [u8]> {
    unsafe {
        let (_, lent) = LENT;
        let end = at.checked_add(len)?;
        (whole() && end <= lent).then(|| &mut (&mut *std::ptr::addr_of_mut!(AREA))[at..end])
    }
}

struct Memory;

impl msc::BlockDevice for Memory {
    fn present(&self) -> bool {
        true
    }
    fn block_size(&self) -> u32 {
        4096
    }
    fn block_count(&self) -> u32 {
        0
    }
    fn read_only(&self) -> bool {
        false
    }
    fn gates_writes(&self) -> bool {
        false
    }
    fn write_error(&self) -> u8 {
        0
    }
    fn product(&self) -> &'static [u8; 16] {
        b"                "
    }
    fn media_change_immediate(&self) -> bool {
        false
    }
    /// Block 0 is the boot block; block c is cluster c.
    fn read_block(&mut self, lba: u32, buf: &mut [u8]) -> bool {
        if lba == 0 {
            return true;
        }
        let Some(at) = lba.checked_sub(2) else { return false };
        let Some(p) = part(at as usize * 4096, 4096) else { return false };
        buf.copy_from_slice(p);
        true
    }
    fn write_block(&mut self, lba: u32, buf: &[u8]) -> bool {
        let Some(at) = lba.checked_sub(2) else { return false };
        let Some(p) = part(at as usize * 4096, 4096) else { return false };
        p.copy_from_slice(buf);
        true
    }
    fn read_busy(&self, _: u32, _: u32) -> bool {
        false
    }
    fn read_wait(&mut self, _: u32) -> bool {
        false
    }
    fn take_media_changed(&mut self) -> bool {
        false
    }
}
