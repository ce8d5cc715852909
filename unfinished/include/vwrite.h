/* How written sectors of the mixer's USB drive are judged. The same header serves x86-64, where `rt staticlib` writes libvwrite.a, from vwrite_start on
 * libvwrite_sessions.a (what takes a vwrite_end: libvwrite_ends.a), and from vwrite_named on libvwrite_reasons.a; the calls that only read the state are in
 * libvwrite_reads.a. For the processors of `firmware/build` all calls are in one libvwrite.a.
 *
 * The caller owns everything: the state, the table of files, the sectors, and the medium. A call reads and writes what it is lent only while it
 * runs, keeps no pointer, and allocates nothing. What is passed by a pointer that is not const may be written; no two of those may overlap each
 * other or anything that is read. A slice is a pointer and its number of elements, in that order; of 0 elements the pointer is not null and is aligned, and is
 * not read. Every number of elements is taken: a wrong one is a refusal where the call has a number for it, and else what lies outside reads as if it were not there. A
 * pointer without a number beside it is to one element, or to as many as its comment says; it is never null, and is aligned.
 *
 * A call answers a number, or whether there is what was asked for; all else it writes through its last parameters, in every case: false and zeros where it is
 * refused or there is nothing.
 *
 * The library has no data of its own, so calls that are lent different things may run at the same time, in any task or interrupt. Of what two calls share, at most
 * one may write: a call that is lent a state, a table or a medium by a pointer that is not const must not be interrupted by another call on the same. No call
 * waits, and none fails to end; what each takes of stack, code and time stands in docs/PERFORMANCE.md. In an interrupt only the smallest are at home: the four of the
 * mode, vwrite_boot_state, vwrite_fat1, vwrite_frozen, the finder and a report. A written sector is judged best in the task that the USB stack calls from.
 *
 * Refusal numbers, 0 where there is none:
 *    1  a sector isn't 512 bytes                    11  body check of a size under 128
 *    2  a place past the drive's end                12  read-only
 *    3  boot byte                                   13  part of a live file
 *    4  FAT[0] or FAT[1]                            14  no pair is free
 *    5  Reserved or Fixed cluster                   15  no record is free
 *    6  host value                                  16  no staging slot is free
 *    7  root slot 0 to 6                            17  medium
 *    8  root slot not admitted                      18  no free block
 *    9  directory slot                              19  busy
 *   10  more than 400 files, or a table that a      20  chain not complete
 *       start doesn't take
 *                                                   21  gone reported of a row that isn't handed
 */
#ifndef VWRITE_H
#define VWRITE_H

#include <stdbool.h>
#include <stddef.h>
#include <stdint.h>

/* Of this header: the first number is another where a program that was compiled with an older one must be compiled anew. */
#define VWRITE_VERSION_MAJOR 2
#define VWRITE_VERSION_MINOR 0

#ifdef __cplusplus
extern "C" {
#endif

/* A number of elements, or a row: 64 bits on every machine. */
typedef uint64_t vwrite_len;

#define VWRITE_NREC 10
#define VWRITE_NPAIR 40
#define VWRITE_NST 28
#define VWRITE_BPC 8

/* A file of the table. In id bits 0 to 9 are the number, 10 and 11 the kind; marks are 12 turned, 13 freed, 14 gone, 15 moved. slot is its
 * directory slot, vstart its first cluster and vsize its size on the drive; src and ssize are those of the file that it is made from. */
typedef struct {
    uint16_t id;
    uint16_t slot;
    uint16_t vstart;
    uint16_t src;
    uint32_t ssize;
    uint32_t vsize;
} vwrite_file;

/* The state of a session. Its fields are the library's: a caller only keeps it, and makes it by vwrite_start. */
typedef struct {
    uint16_t slot;
    uint8_t e[32];
} vwrite_rec;

typedef struct {
    uint16_t c;
    uint16_t v;
} vwrite_pair_place;

typedef struct {
    uint16_t c;
    bool sealed;
    uint8_t ro;
    uint64_t map;
    uint16_t blk[VWRITE_BPC];
} vwrite_st;

typedef struct {
    uint16_t slot;
    uint16_t start;
    uint32_t size;
    uint32_t ver;
} vwrite_done;

typedef struct {
    uint32_t ok;
    uint32_t refused;
    uint32_t busy;
    uint32_t last_refused;
    uint16_t deleted;
    uint16_t fw_ok;
    uint16_t fw_bad;
} vwrite_stats;

typedef struct {
    bool rw;
    bool want_rw;
    uint8_t boot;
    uint32_t fat1;
    vwrite_rec rec[VWRITE_NREC];
    vwrite_pair_place pair[VWRITE_NPAIR];
    vwrite_st st[VWRITE_NST];
    bool session;
    bool locks;
    uint64_t last;
    uint64_t now_ms;
    bool staging;
    uint64_t stage_t;
    uint32_t hint;
    uint8_t err;
    uint8_t fw;
    vwrite_done done;
    uint32_t ver;
    uint64_t end_at;
    uint8_t parks;
    bool purged;
    bool purge;
    vwrite_stats n;
    uint32_t first;
} vwrite_state;

/* Whose a cluster is: 0 Reserved, 1 Fixed, 2 a file, 3 Free; and the file's row, 0 where it is no file's. */
typedef struct {
    uint8_t owner;
    vwrite_len row;
} vwrite_own;

/* What a call that may end the session did: 0 where no release was due, 1 where one ran to its end, 2 where it was put off; whether there was anything to
 * release. */
typedef struct {
    uint8_t ended;
    bool had;
} vwrite_end;

/* Whether a file is handed to deletion, and its row, 0 where none is. */
typedef struct {
    bool found;
    vwrite_len row;
} vwrite_handed;

/* The sector written at lba is judged; shown is the one that the drive shows there. busy: the medium's bus is taken. The medium is fat, 3 to
 * 65,526 entries, only read, and area, 4,096 bytes for each entry after the second. Answers the refusal number: 1 to 10, 12 to 19. */
uint8_t vwrite_write(vwrite_state *w, vwrite_file *files, vwrite_len nfiles, uint32_t lba, const uint8_t *shown, vwrite_len nshown, const uint8_t *written,
                     vwrite_len nwritten, bool busy, const uint16_t *fat, vwrite_len nfat, uint8_t *area, vwrite_len narea);

/* Sector s of the staged cluster c into out, 512 bytes, zeros where the host wrote none or the medium that is lent has no such block. out stays as it is where the
 * call is refused (1, 2) or the cluster is not staged; staged says which. */
uint8_t vwrite_staged_read(const vwrite_state *w, const uint16_t *fat, vwrite_len nfat, const uint8_t *area, vwrite_len narea, uint32_t c, uint32_t s,
                           uint8_t *out, vwrite_len nout, bool *staged);

/* Is there a FAT entry of the host's for a cluster; its value, 0 where there is none. */
bool vwrite_pair(const vwrite_state *w, uint32_t c, uint16_t *v);

/* Is there a record of the host's in a root slot; its 32 bytes, zeros where there is none. */
bool vwrite_root_rec(const vwrite_state *w, vwrite_len slot, uint8_t *e);

/* The boot byte; FAT[1] as the host wrote it, 65535 if it didn't; must the layout not change under the host. */
uint8_t vwrite_boot_state(const vwrite_state *w);

uint16_t vwrite_fat1(const vwrite_state *w);

bool vwrite_frozen(const vwrite_state *w, bool mounted);

/* Is the chain of an update file with that start and size complete; its staging slots in the file's order, VWRITE_NST bytes, and how many they are. */
bool vwrite_complete(const vwrite_state *w, uint32_t start, uint32_t size, uint8_t *slots, vwrite_len *n);

/* Is the body of the update file with that start and size as it must be: its blocks decode, its length and CRC are those that it holds. Answers 11 or 20
 * where refused. */
uint8_t vwrite_body_check(const vwrite_state *w, const uint16_t *fat, vwrite_len nfat, const uint8_t *area, vwrite_len narea, uint32_t start,
                          uint32_t size, bool *valid);

/* The update file's CRC of more bytes, after c; from 0xFFFF for the first. */
uint16_t vwrite_crc16(uint16_t c, const uint8_t *bytes, vwrite_len n);

/* Is the strict long name of a root slot from 7 to 511 housekeeping; sector is the one that the slot is in. Answers 1, 2 or 7 where refused. */
uint8_t vwrite_strict_name(const vwrite_state *w, const uint8_t *sector, vwrite_len nsector, vwrite_len slot, bool *housekeeping);

/* Lookups in the drive's layout: whose a cluster is (10 where refused); is it a directory, and its file kind (3 for INFO and DEBUG), 0 where it is none;
 * clusters of a file of so many bytes. */
uint8_t vwrite_owner(const vwrite_file *files, vwrite_len nfiles, uint32_t first, uint32_t c, vwrite_own *own);

bool vwrite_dir_kind(uint32_t c, uint16_t *kind);

uint32_t vwrite_nclus(uint32_t size);

/* A start: takes the table only if it is acceptable, and sets the state anew, read-only, with the first session cluster; 10 otherwise, and the old
 * table and state go on. The caller keeps the table and lends it to every later call as the last one left it. Before the first start *w holds
 * zeros. */
uint8_t vwrite_start(vwrite_state *w, const vwrite_file *files, vwrite_len nfiles, uint32_t first);

/* A tick of the clock, in milliseconds; it may go back. mounted: the computer has locked the medium. Ends a session whose held-back end is due or
 * that was quiet for a minute. It, and each call that may end the session, answers 10 where refused. Lend the whole medium: a moved file is handed at a release only
 * if a staged sector in it still names the file. */
uint8_t vwrite_poll(vwrite_state *w, vwrite_file *files, vwrite_len nfiles, uint64_t clock, bool mounted, const uint16_t *fat, vwrite_len nfat,
                    const uint8_t *area, vwrite_len narea, vwrite_end *end);

/* The session's end: the computer unmounted the drive. Put off while an update file isn't decided. */
uint8_t vwrite_release(vwrite_state *w, vwrite_file *files, vwrite_len nfiles, const uint16_t *fat, vwrite_len nfat, const uint8_t *area, vwrite_len narea,
                       vwrite_end *end);

/* The same, put off by nothing; reset: locks go too. */
uint8_t vwrite_release_all(vwrite_state *w, vwrite_file *files, vwrite_len nfiles, bool reset, const uint16_t *fat, vwrite_len nfat, const uint8_t *area,
                           vwrite_len narea, vwrite_end *end);

/* A bus reset: vdisk's releases the session first; vwrite's only puts in force the mode that was asked for. */
uint8_t vdisk_on_bus_reset(vwrite_state *w, vwrite_file *files, vwrite_len nfiles, const uint16_t *fat, vwrite_len nfat, const uint8_t *area,
                           vwrite_len narea, vwrite_end *end);

void vwrite_on_bus_reset(vwrite_state *w);

/* Ask for the read-only drive (on) or the one that can be written; in force from the next bus reset on. The mode in force, and the one asked for. */
void vwrite_set_read_only(vwrite_state *w, bool on);

bool vwrite_read_only(const vwrite_state *w);

bool vwrite_read_only_pending(const vwrite_state *w);

/* A file that is handed to deletion, any one, if there is one. Report it gone once it is deleted, or was found to be another file: 21 for a row that isn't in the
 * table or whose file isn't handed. Both answer 10 for more than 400 files. */
uint8_t vwrite_find_handed(const vwrite_file *files, vwrite_len nfiles, vwrite_handed *handed);

uint8_t vwrite_report_gone(vwrite_file *files, vwrite_len nfiles, vwrite_len row);

/* Why a file is handed, or what is missing, for programs that tell it: what the calls held of one file since the start, or since the completed release that last
 * left it unmarked. turned: its slot was turned. zeroed: its entries in a FAT sector all became free. moved: a staged sector named it when it was turned, or was staged
 * and named it after that. named: a completed release after the move found it still named. gone: it was reported gone. A file is handed exactly if it was turned, and
 * zeroed or named, and not reported gone. All false at the start; then kept up after every call by the three functions below. */
typedef struct {
    bool turned;
    bool zeroed;
    bool moved;
    bool named;
    bool gone;
} vwrite_reason;

/* Does a staged sector name the file with that start and size, as the medium stands. */
bool vwrite_named(const vwrite_state *w, const uint16_t *fat, vwrite_len nfat, const uint8_t *area, vwrite_len narea, uint16_t start, uint32_t size);

/* After vwrite_write, which answered number. id, slot, start and size are the file's. named: whether a staged sector named the file before the call
 * (vwrite_named). staged: whether the write staged its sector, which is where the state's ver is another than before. */
void vwrite_after_write(vwrite_reason *r, uint16_t id, uint16_t slot, uint16_t start, uint32_t size, uint8_t number, uint32_t lba, const uint8_t *shown,
                        vwrite_len nshown, const uint8_t *written, vwrite_len nwritten, bool named, bool staged);

/* After a call that wrote a vwrite_end: its ended, the file's id after the call, and whether a staged sector named the file before it. */
void vwrite_after_end(vwrite_reason *r, uint8_t ended, uint16_t id, bool named);

/* After vwrite_report_gone of a row, which answered number; the file is in row j. */
void vwrite_after_gone(vwrite_reason *r, uint8_t number, vwrite_len row, vwrite_len j);

#ifdef __cplusplus
}
#endif

/* A machine, or a changed copy of this header, on which a size or an offset is another than the library's is refused when it is compiled. */
#if defined(__cplusplus)
#define VWRITE_STATIC(holds, name) static_assert(holds, #name)
#elif defined(__STDC_VERSION__) && __STDC_VERSION__ >= 201112L
#define VWRITE_STATIC(holds, name) _Static_assert(holds, #name)
#else
#define VWRITE_STATIC(holds, name) typedef char vwrite_static_##name[(holds) ? 1 : -1]
#endif
#define VWRITE_SIZE(type, size, align) \
    struct vwrite_align_##type { \
        char c; \
        type t; \
    }; \
    VWRITE_STATIC(sizeof(type) == (size) && offsetof(struct vwrite_align_##type, t) == (align), size_of_##type)
#define VWRITE_AT(type, field, offset) VWRITE_STATIC(offsetof(type, field) == (offset), type##_##field)

VWRITE_SIZE(bool, 1, 1);
VWRITE_SIZE(vwrite_len, 8, 8);
VWRITE_SIZE(vwrite_file, 16, 4);
VWRITE_AT(vwrite_file, id, 0);
VWRITE_AT(vwrite_file, slot, 2);
VWRITE_AT(vwrite_file, vstart, 4);
VWRITE_AT(vwrite_file, src, 6);
VWRITE_AT(vwrite_file, ssize, 8);
VWRITE_AT(vwrite_file, vsize, 12);
VWRITE_SIZE(vwrite_rec, 34, 2);
VWRITE_AT(vwrite_rec, slot, 0);
VWRITE_AT(vwrite_rec, e, 2);
VWRITE_SIZE(vwrite_pair_place, 4, 2);
VWRITE_AT(vwrite_pair_place, c, 0);
VWRITE_AT(vwrite_pair_place, v, 2);
VWRITE_SIZE(vwrite_st, 32, 8);
VWRITE_AT(vwrite_st, c, 0);
VWRITE_AT(vwrite_st, sealed, 2);
VWRITE_AT(vwrite_st, ro, 3);
VWRITE_AT(vwrite_st, map, 8);
VWRITE_AT(vwrite_st, blk, 16);
VWRITE_SIZE(vwrite_done, 12, 4);
VWRITE_AT(vwrite_done, slot, 0);
VWRITE_AT(vwrite_done, start, 2);
VWRITE_AT(vwrite_done, size, 4);
VWRITE_AT(vwrite_done, ver, 8);
VWRITE_SIZE(vwrite_stats, 24, 4);
VWRITE_AT(vwrite_stats, ok, 0);
VWRITE_AT(vwrite_stats, refused, 4);
VWRITE_AT(vwrite_stats, busy, 8);
VWRITE_AT(vwrite_stats, last_refused, 12);
VWRITE_AT(vwrite_stats, deleted, 16);
VWRITE_AT(vwrite_stats, fw_ok, 18);
VWRITE_AT(vwrite_stats, fw_bad, 20);
VWRITE_SIZE(vwrite_state, 1512, 8);
VWRITE_AT(vwrite_state, rw, 0);
VWRITE_AT(vwrite_state, want_rw, 1);
VWRITE_AT(vwrite_state, boot, 2);
VWRITE_AT(vwrite_state, fat1, 4);
VWRITE_AT(vwrite_state, rec, 8);
VWRITE_AT(vwrite_state, pair, 348);
VWRITE_AT(vwrite_state, st, 512);
VWRITE_AT(vwrite_state, session, 1408);
VWRITE_AT(vwrite_state, locks, 1409);
VWRITE_AT(vwrite_state, last, 1416);
VWRITE_AT(vwrite_state, now_ms, 1424);
VWRITE_AT(vwrite_state, staging, 1432);
VWRITE_AT(vwrite_state, stage_t, 1440);
VWRITE_AT(vwrite_state, hint, 1448);
VWRITE_AT(vwrite_state, err, 1452);
VWRITE_AT(vwrite_state, fw, 1453);
VWRITE_AT(vwrite_state, done, 1456);
VWRITE_AT(vwrite_state, ver, 1468);
VWRITE_AT(vwrite_state, end_at, 1472);
VWRITE_AT(vwrite_state, parks, 1480);
VWRITE_AT(vwrite_state, purged, 1481);
VWRITE_AT(vwrite_state, purge, 1482);
VWRITE_AT(vwrite_state, n, 1484);
VWRITE_AT(vwrite_state, first, 1508);
VWRITE_SIZE(vwrite_own, 16, 8);
VWRITE_AT(vwrite_own, owner, 0);
VWRITE_AT(vwrite_own, row, 8);
VWRITE_SIZE(vwrite_end, 2, 1);
VWRITE_AT(vwrite_end, ended, 0);
VWRITE_AT(vwrite_end, had, 1);
VWRITE_SIZE(vwrite_handed, 16, 8);
VWRITE_AT(vwrite_handed, found, 0);
VWRITE_AT(vwrite_handed, row, 8);
VWRITE_SIZE(vwrite_reason, 5, 1);
VWRITE_AT(vwrite_reason, turned, 0);
VWRITE_AT(vwrite_reason, zeroed, 1);
VWRITE_AT(vwrite_reason, moved, 2);
VWRITE_AT(vwrite_reason, named, 3);
VWRITE_AT(vwrite_reason, gone, 4);

#undef VWRITE_AT
#undef VWRITE_SIZE
#undef VWRITE_STATIC

#endif
