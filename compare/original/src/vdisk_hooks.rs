
// --- hooks of the comparison: the table and the first session cluster ---

pub fn hook_set_table(files: &[bindings::File], first: u32) {
    let none = VFile { name: [b' '; 11], kind: Kind::Mem, addr: 0, size: 0, start: 0, crc: 0 };
    fn zeros(_: u32, b: &mut [u8]) {
        b.fill(0);
    }
    let st = State { files: [none; NF], n: 0, fw: None, mem: zeros, uid: [0; 12], spi_start: first, dyn0: first, slow: [(0, 0); NF] };
    let mut t = Tab { e: [VF0; MAX_VF], n: files.len(), hw: first, slot_hw: [2; 3], want_compact: false, left_out: 0 };
    for (e, f) in t.e.iter_mut().zip(files) {
        *e = VF { id: f.id, slot: f.slot, vstart: f.vstart, src: f.src, ssize: f.ssize, vsize: f.vsize };
        t.hw = t.hw.max(f.vstart as u32 + nclus(f.vsize));
        let k = id_dir(f.id);
        t.slot_hw[k] = t.slot_hw[k].max(f.slot.saturating_add(1));
    }
    unsafe {
        (*core::ptr::addr_of_mut!(STATE)).write(st);
        (*core::ptr::addr_of_mut!(TAB)).write(t);
    }
    READY.store(true, core::sync::atomic::Ordering::Release);
}

pub fn hook_table() -> Vec<bindings::File> {
    entries().iter().map(|e| bindings::File { id: e.id, slot: e.slot, vstart: e.vstart, src: e.src, ssize: e.ssize, vsize: e.vsize }).collect()
}

pub fn hook_first() -> u32 {
    st_dyn0()
}

pub fn hook_set_first(first: u32) {
    unsafe { (*core::ptr::addr_of_mut!(STATE)).assume_init_mut().dyn0 = first };
}
