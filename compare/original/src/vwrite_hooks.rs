
// --- hooks of the comparison: all that is kept, set and read ---

fn numbered(e: u8, n: u8) -> u8 {
    crate::stubs::set_number(n);
    e
}

pub fn hook_state(first: u32) -> bindings::State {
    let w = w();
    let mut s = bindings::State::new(first);
    (s.rw, s.want_rw, s.boot, s.fat1) = (w.rw, w.want_rw, w.boot, w.fat1);
    for (a, b) in s.rec.iter_mut().zip(&w.rec) {
        *a = bindings::Rec { slot: b.slot, e: b.e };
    }
    for (a, b) in s.pair.iter_mut().zip(&w.pair) {
        *a = bindings::Pair { c: b.c, v: b.v };
    }
    for (a, b) in s.st.iter_mut().zip(&w.st) {
        *a = bindings::St { c: b.c, sealed: b.sealed, ro: b.ro, map: b.map, blk: b.blk };
    }
    (s.session, s.locks, s.last, s.now_ms) = (w.session, w.locks, w.last, w.now);
    (s.staging, s.stage_t, s.hint, s.err, s.fw) = (w.staging, w.stage_t, w.hint, w.err, w.fw as u8);
    s.done = bindings::Done { slot: w.done.0, start: w.done.1, size: w.done.2, ver: w.done.3 };
    (s.ver, s.end_at, s.parks, s.purged, s.purge) = (w.ver, w.end_at, w.parks, w.purged, w.purge);
    s.n = bindings::Stats {
        ok: w.n.ok,
        refused: w.n.refused,
        busy: w.n.busy,
        last_refused: w.n.last_refused,
        deleted: w.n.deleted,
        fw_ok: w.n.fw_ok,
        fw_bad: w.n.fw_bad,
    };
    s
}

pub fn hook_set_state(s: &bindings::State) {
    let w = w();
    (w.rw, w.want_rw, w.boot, w.fat1) = (s.rw, s.want_rw, s.boot, s.fat1);
    for (a, b) in w.rec.iter_mut().zip(&s.rec) {
        *a = Rec { slot: b.slot, e: b.e };
    }
    for (a, b) in w.pair.iter_mut().zip(&s.pair) {
        *a = Pair { c: b.c, v: b.v };
    }
    for (a, b) in w.st.iter_mut().zip(&s.st) {
        *a = St { c: b.c, sealed: b.sealed, ro: b.ro, map: b.map, blk: b.blk };
    }
    (w.session, w.locks, w.last, w.now) = (s.session, s.locks, s.last, s.now_ms);
    (w.staging, w.stage_t, w.hint, w.err) = (s.staging, s.stage_t, s.hint, s.err);
    w.fw = [Fw::None, Fw::Ask, Fw::Asked, Fw::Decline, Fw::Install, Fw::Bad][s.fw as usize];
    w.done = (s.done.slot, s.done.start, s.done.size, s.done.ver);
    (w.ver, w.end_at, w.parks, w.purged, w.purge) = (s.ver, s.end_at, s.parks, s.purged, s.purge);
    w.n = Stats {
        ok: s.n.ok,
        refused: s.n.refused,
        busy: s.n.busy,
        last_refused: s.n.last_refused,
        deleted: s.n.deleted,
        fw_ok: s.n.fw_ok,
        fw_bad: s.n.fw_bad,
    };
}

pub fn hook_complete(start: u32, size: u32) -> Option<([u8; NST], usize)> {
    complete(start, size)
}

pub fn hook_body(start: u32, size: u32) -> Option<bool> {
    let (chain, n) = complete(start, size)?;
    Some(check(&chain[..n], size))
}

pub fn hook_crc16(c: u16, data: &[u8]) -> u16 {
    crc16_upd(c, data)
}

pub fn hook_decode(p: &mut [u8]) -> bool {
    decode_block(p)
}
