#include "session.h"
#include <string.h>

vwrite_state w;
vwrite_file files[FILES];
vwrite_len nfiles;
uint16_t fat[ENTRIES];
vwrite_len nfat, narea;
uint32_t hash;
uint32_t kind_calls[KINDS];
uint64_t kind_total[KINDS];
uint32_t kind_most[KINDS];
#ifdef AREA
uint8_t *const area = (uint8_t *)AREA;
#else
static uint8_t area_bytes[AREA_BYTES];
uint8_t *const area = area_bytes;
#endif

void mix(const void *bytes, uint32_t n) {
    const uint8_t *b = bytes;
    while (n--) hash = (hash ^ *b++) * 16777619u;
}

void mix_number(uint64_t n) {
    for (int i = 0; i < 8; i++) hash = (hash ^ (uint8_t)(n >> (8 * i))) * 16777619u;
}

static void mix_arrays(void) {
    for (int i = 0; i < VWRITE_NREC; i++) {
        mix_number(w.rec[i].slot);
        mix(w.rec[i].e, 32);
    }
    for (int i = 0; i < VWRITE_NPAIR; i++) mix_number((uint32_t)w.pair[i].c << 16 | w.pair[i].v);
    for (int i = 0; i < VWRITE_NST; i++) {
        mix_number((uint32_t)w.st[i].c << 16 | (uint32_t)w.st[i].sealed << 8 | w.st[i].ro);
        mix_number(w.st[i].map);
        for (int k = 0; k < VWRITE_BPC; k++) mix_number(w.st[i].blk[k]);
    }
}

void mix_session(void) {
    const uint64_t fields[] = {
        w.rw, w.want_rw, w.boot, w.fat1, w.session, w.locks, w.last, w.now_ms, w.staging, w.stage_t, w.hint, w.err, w.fw, w.done.slot, w.done.start,
        w.done.size, w.done.ver, w.ver, w.end_at, w.parks, w.purged, w.purge, w.n.ok, w.n.refused, w.n.busy, w.n.last_refused, w.n.deleted, w.n.fw_ok,
        w.n.fw_bad, w.first
    };
    for (unsigned i = 0; i < sizeof fields / sizeof *fields; i++) mix_number(fields[i]);
    mix_arrays();
    mix(files, sizeof *files * (uint32_t)nfiles);
}

uint8_t start(const vwrite_file *table, vwrite_len n, uint32_t first) {
    uint8_t no;
    CALL(START, no = vwrite_start(&w, table, n, first));
    if (no == 0) {
        memcpy(files, table, sizeof *files * (uint32_t)n);
        nfiles = n;
    }
    mix_number(no);
    mix_session();
    return no;
}

void session_new(void) {
    memset(&w, 0, sizeof w);
    nfiles = nfat = narea = 0;
    hash = 2166136261u;
    start(files, 0, 7);
}

void set_read_only(bool on) {
    bool in_force, pending;
    CALL(SET_READ_ONLY, vwrite_set_read_only(&w, on));
    CALL(READ_ONLY, in_force = vwrite_read_only(&w));
    pending = vwrite_read_only_pending(&w);
    mix_number(in_force * 2u + pending);
    mix_session();
}

void mode_reset(void) {
    CALL(MODE_RESET, vwrite_on_bus_reset(&w));
    mix_session();
}

uint8_t put(uint32_t lba, const uint8_t *shown, vwrite_len nshown, const uint8_t *written, vwrite_len nwritten, bool busy) {
    uint8_t no;
    CALL(WRITE, no = vwrite_write(&w, files, nfiles, lba, shown, nshown, written, nwritten, busy, fat, nfat, area, narea));
    mix_number(no);
    mix_session();
    return no;
}

static uint8_t ended(uint8_t no, const vwrite_end *end) {
    mix_number(no);
    mix_number(end->ended * 2u + end->had);
    mix_session();
    return no;
}

uint8_t tick(uint64_t clock, bool mounted) {
    uint8_t no;
    vwrite_end end;
    CALL(POLL, no = vwrite_poll(&w, files, nfiles, clock, mounted, fat, nfat, area, narea, &end));
    return ended(no, &end);
}

uint8_t release(void) {
    uint8_t no;
    vwrite_end end;
    CALL(RELEASE, no = vwrite_release(&w, files, nfiles, fat, nfat, area, narea, &end));
    return ended(no, &end);
}

uint8_t release_all(bool reset) {
    uint8_t no;
    vwrite_end end;
    CALL(RELEASE_ALL, no = vwrite_release_all(&w, files, nfiles, reset, fat, nfat, area, narea, &end));
    return ended(no, &end);
}

uint8_t bus_reset(void) {
    uint8_t no;
    vwrite_end end;
    CALL(BUS_RESET, no = vdisk_on_bus_reset(&w, files, nfiles, fat, nfat, area, narea, &end));
    return ended(no, &end);
}

bool is_handed(vwrite_len row) {
    vwrite_handed one;
    vwrite_find_handed(&files[row], 1, &one);
    return one.found;
}

uint8_t find_handed(vwrite_handed *handed) {
    uint8_t no;
    CALL(FIND_HANDED, no = vwrite_find_handed(files, nfiles, handed));
    mix_number(no);
    mix_number(handed->row * 2 + handed->found);
    return no;
}

uint8_t report_gone(vwrite_len row) {
    uint8_t no;
    CALL(REPORT_GONE, no = vwrite_report_gone(files, nfiles, row));
    mix_number(no);
    mix_session();
    return no;
}

static void drive_queries(uint32_t c, uint32_t size) {
    uint8_t no;
    uint16_t kind;
    uint32_t clusters;
    bool found;
    vwrite_own own;
    CALL(OWNER, no = vwrite_owner(files, nfiles, w.first, c, &own));
    mix_number(no);
    mix_number(own.row * 4 + own.owner);
    CALL(DIR_KIND, found = vwrite_dir_kind(c, &kind));
    mix_number(kind * 2u + found);
    CALL(NCLUS, clusters = vwrite_nclus(size));
    mix_number(clusters);
}

static void update_queries(uint32_t c, uint32_t size, const uint8_t *sector) {
    uint8_t no, slots[VWRITE_NST];
    uint16_t crc;
    vwrite_len n;
    bool found, valid;
    CALL(COMPLETE, found = vwrite_complete(&w, c, size, slots, &n));
    mix(slots, sizeof slots);
    mix_number(n * 2 + found);
    CALL(BODY_CHECK, no = vwrite_body_check(&w, fat, nfat, area, narea, c, size, &valid));
    mix_number(no * 2u + valid);
    CALL(CRC16, crc = vwrite_crc16((uint16_t)size, sector, 512));
    mix_number(crc);
}

void queries(uint32_t c, vwrite_len slot, uint32_t size, const uint8_t *sector) {
    uint8_t no, boot, record[32], out[512];
    uint16_t v;
    bool found, staged, housekeeping;
    memset(out, 0x5A, sizeof out);
    CALL(STAGED_READ, no = vwrite_staged_read(&w, fat, nfat, area, narea, c, size % 66, out, sizeof out, &staged));
    mix(out, sizeof out);
    mix_number(no * 2u + staged);
    CALL(PAIR, found = vwrite_pair(&w, c, &v));
    mix_number(v * 2u + found);
    CALL(ROOT_REC, found = vwrite_root_rec(&w, slot, record));
    mix(record, sizeof record);
    CALL(STRICT_NAME, no = vwrite_strict_name(&w, sector, 512, slot, &housekeeping));
    mix_number(no * 4u + housekeeping * 2u + found);
    CALL(QUERY, boot = vwrite_boot_state(&w));
    mix_number(boot + (uint32_t)vwrite_fat1(&w) * 256 + vwrite_frozen(&w, c & 1) * 2u + vwrite_read_only_pending(&w));
    drive_queries(c, size);
    update_queries(c, size, sector);
}

void reasons(vwrite_len row, uint8_t number, uint32_t lba, const uint8_t *shown, const uint8_t *written) {
    const vwrite_file f = files[row];
    vwrite_reason r = {false, false, false, false, false};
    bool named;
    CALL(NAMED, named = vwrite_named(&w, fat, nfat, area, narea, f.vstart, f.vsize));
    CALL(AFTER_WRITE, vwrite_after_write(&r, f.id, f.slot, f.vstart, f.vsize, number, lba, shown, 512, written, 512, named, number == 0));
    mix(&r, sizeof r);
    CALL(AFTER_END, vwrite_after_end(&r, number % 3, f.id, named));
    mix(&r, sizeof r);
    CALL(AFTER_GONE, vwrite_after_gone(&r, number, row, row));
    mix(&r, sizeof r);
}
