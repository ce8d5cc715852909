/* Random calls from a seed, the same on every machine: a line for each session with a hash over every answer, state, table and the medium, and at the end how often
 * each number was answered. */
#include "session.h"
#include <string.h>

enum { FAT_START = 1, FAT_SECS = 254, ROOT_START = 509, DATA_START = 541, SPC = 64, ENTRIES_USED = 400, SESSION_CALLS = 200 };

static uint64_t seed;
static uint32_t numbers[32];
static vwrite_file table[FILES];
static uint8_t shown[520], written[520];
static uint32_t first;
static uint64_t clock_ms;

static uint32_t below(uint32_t n) {
    seed ^= seed << 13;
    seed ^= seed >> 7;
    seed ^= seed << 17;
    return (uint32_t)(seed >> 32) % n;
}

static bool one_in(uint32_t n) {
    return below(n) == 0;
}

static void count(uint8_t no) {
    numbers[no % 32]++;
}

static void put16(uint8_t *p, uint32_t v) {
    p[0] = (uint8_t)v;
    p[1] = (uint8_t)(v >> 8);
}

static void new_table(void) {
    uint16_t slots[3] = {2, 2, 2};
    vwrite_len n = one_in(30) ? 399 : below(12);
    uint32_t c = 8;
    for (vwrite_len j = 0; j < n; j++) {
        uint32_t kind = below(3), size = one_in(3) ? below(5) : below(200000);
        table[j].id = (uint16_t)(kind << 10 | ((j + 1) & 1023));
        table[j].slot = slots[kind]++;
        table[j].vstart = (uint16_t)(size ? c : 0);
        table[j].src = (uint16_t)(2 + below(300));
        table[j].ssize = table[j].vsize = size;
        c += (size + 32767) / 32768;
    }
    first = one_in(10) ? 9 : 8;
    count(start(table, n, first));
}

static void new_medium(void) {
    nfat = 3 + below(ENTRIES_USED - 3);
    narea = (nfat - 2) * 4096;
    if (one_in(20)) narea -= 1 + below(5);
    for (vwrite_len i = 0; i < nfat; i++) fat[i] = one_in(4) ? (uint16_t)below(65536) : 0;
    memset(area, one_in(2) ? 255 : 0, (ENTRIES_USED - 2) * 4096);
}

/* A place: the boot sector and nearby, the FATs' first sectors, the root's, directories and the first clusters' data, anywhere. Numbers are drawn one by one, since the
 * order within an expression is the compiler's. */
static uint32_t place(void) {
    uint32_t kind = below(7), cluster = below(60), sector = below(SPC), anywhere = below(0xFFFFFFFFu);
    switch (kind) {
    case 0: return sector;
    case 1: return FAT_START + sector % 2;
    case 2: return FAT_START + FAT_SECS + sector % 2;
    case 3: return ROOT_START + sector % 3;
    case 4: return DATA_START + cluster % 5 * SPC + sector % 3;
    default: return anywhere % 60 == 0 ? anywhere : DATA_START + cluster * SPC + sector;
    }
}

static bool is_fat(uint32_t lba) {
    return lba >= FAT_START && lba < ROOT_START;
}

/* What the drive shows there, nearly: the files' chains in a FAT, else zeros or noise. */
static void show(uint32_t lba) {
    uint32_t from = (lba - FAT_START) % FAT_SECS * 256;
    bool noise = one_in(3);
    for (uint32_t i = 0; i < 512; i++) shown[i] = noise ? (uint8_t)below(256) : 0;
    if (!is_fat(lba) || one_in(4)) return;
    for (uint32_t i = 0; i < 256; i++) {
        uint32_t e = from + i;
        bool last = one_in(2);
        put16(shown + 2 * i, e == 0 ? 0xFFF8 : e == 1 ? 0xFFFF : e < 8 || e > 60 ? 0 : last ? 0xFFFF : e + 1);
    }
}

static void change_slot(uint8_t *slot) {
    const vwrite_file *f = &files[below(nfiles ? (uint32_t)nfiles : 1)];
    switch (below(4)) {
    case 0: slot[0] = 0xE5; break;
    case 1: memcpy(slot, "DM40FW  BIN \0\0\0\0\0\0\0\0\0\0\0\0\0\0\x09\0\x88\x13\0\0", 32); break;
    case 2:
        memset(slot, 0, 32);
        memcpy(slot, "TRASH-~1   \x10", 12);
        put16(slot + 26, 8 + below(4));
        break;
    default:
        memset(slot, 'A', 11);
        slot[11] = 0x20;
        put16(slot + 26, f->vstart);
        put16(slot + 28, f->vsize);
        put16(slot + 30, f->vsize >> 16);
    }
}

static void change(uint32_t lba) {
    memcpy(written, shown, sizeof written);
    for (uint32_t i = below(5); i > 0; i--) {
        uint32_t at = below(512), near = below(60), value = below(140);
        bool first_entries = one_in(2), byte = one_in(3);
        if (is_fat(lba)) put16(written + (first_entries ? 14 + 2 * near : at & ~1u), value < 70 ? value : value < 105 ? 0 : 0xFFFF);
        else if (byte) written[at] = (uint8_t)value;
        else change_slot(written + (at & ~31u));
    }
}

static void random_write(void) {
    uint32_t lba = place();
    vwrite_len entries = nfat, bytes = narea;
    show(lba);
    change(lba);
    uint32_t ns = one_in(60) ? below(520) : 512, nw = one_in(60) ? below(520) : 512;
    bool busy = one_in(50);
    if (one_in(80)) nfat = below((uint32_t)nfat + 1);
    if (one_in(80)) narea = below((uint32_t)narea + 1);
    uint8_t no = put(lba, shown, ns, written, nw, busy);
    nfat = entries;
    narea = bytes;
    count(no);
    uint32_t c = below(40), slot = below(600), size = below(200000);
    if (c % 8 == 0) queries(c, slot, size, written);
    if (nfiles && one_in(8)) reasons(below((uint32_t)nfiles), no, lba, shown, written);
}

static void random_call(void) {
    vwrite_handed handed;
    uint32_t what = below(160);
    if (what < 150) random_write();
    else if (what < 154) {
        bool mounted = one_in(2);
        clock_ms += below(30000);
        count(tick(clock_ms, mounted));
    } else if (what == 154) count(release());
    else if (what == 155) {
        bool reset = one_in(2);
        count(one_in(2) ? release_all(reset) : bus_reset());
    } else {
        uint32_t row = below(14);
        find_handed(&handed);
        count(report_gone(handed.found && row % 2 ? handed.row : row));
    }
}

int main(void) {
    measure_begin();
    for (uint32_t k = 1; k <= SESSIONS; k++) {
        seed = 0x9E3779B97F4A7C15ull * (SEED + k);
        for (int i = 0; i < 8; i++) below(2);
        session_new();
        clock_ms = below(5000);
        new_medium();
        new_table();
        set_read_only(one_in(25));
        if (!one_in(25)) mode_reset();
        for (int i = 0; i < SESSION_CALLS; i++) random_call();
        mix(area, (ENTRIES_USED - 2) * 4096);
        printf("%lu %08lx\n", (unsigned long)k, (unsigned long)hash);
    }
    printf("numbers");
    for (int i = 0; i < 32; i++)
        if (numbers[i]) printf(" %d:%lu", i, (unsigned long)numbers[i]);
    printf("\n");
    measure_tell();
    return 0;
}
