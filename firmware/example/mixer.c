/* A firmware's part around the library, to begin from. It runs on any machine: what the USB stack and the file system would do is done here by a few lines, each
 * marked "yours". C99 and C++. */
#include "vwrite.h"
#include <stdio.h>
#include <string.h>

enum { SECTOR = 512, NFILES = 2, NFAT = 64, FIRST = 8, FAT_PLACE = 2, LOGS_PLACE = 669 };

/* What the library is lent for as long as the drive is shown: the state, the files that the drive shows, and the medium as slices. */
static vwrite_state state;
static vwrite_file files[NFILES] = {{7, 2, 300, 50, 900, 20000}, {8, 3, 301, 51, 900, 20000}};
static uint16_t fat[NFAT];
static uint8_t area[(NFAT - 2) * 4096];

/* Yours: the sector that the drive shows at a place. Here a directory with the slots of two files, and the FAT with their last clusters. */
static void show(uint32_t place, uint8_t *sector) {
    memset(sector, 0, SECTOR);
    if (place == LOGS_PLACE) {
        memcpy(sector + 64, "LOG007  CSV\x01", 12);
        memcpy(sector + 96, "LOG008  CSV\x01", 12);
    } else if (place == FAT_PLACE) {
        memset(sector + 88, 0xFF, 4);
    }
}

/* Yours: called by the USB stack for every sector that the computer writes. A refused one is answered with an error to the computer. */
static bool on_usb_write(uint32_t place, const uint8_t *written, bool bus_is_taken) {
    uint8_t shown[SECTOR];
    uint8_t number;
    show(place, shown);
    number = vwrite_write(&state, files, NFILES, place, shown, SECTOR, written, SECTOR, bus_is_taken, fat, NFAT, area, sizeof area);
    printf("write at %lu: %u\n", (unsigned long)place, number);
    return number == 0;
}

/* Called every few milliseconds, from the same task as the writes. */
static void on_tick(uint64_t clock_ms, bool mounted) {
    vwrite_end end;
    uint8_t number = vwrite_poll(&state, files, NFILES, clock_ms, mounted, fat, NFAT, area, sizeof area, &end);
    printf("tick at %lu: %u, ended %u\n", (unsigned long)clock_ms, number, end.ended);
}

/* Files that the computer gave up, one after another. Yours: the deletion from the medium, between the finder and the report. */
static unsigned delete_handed(void) {
    vwrite_handed handed;
    unsigned count = 0;
    while (vwrite_find_handed(files, NFILES, &handed) == 0 && handed.found) {
        printf("delete the file of row %u\n", (unsigned)handed.row);
        if (vwrite_report_gone(files, NFILES, handed.row) != 0) break;
        count++;
    }
    return count;
}

static bool start(void) {
    memset(&state, 0, sizeof state);
    if (vwrite_start(&state, files, NFILES, FIRST) != 0) return false;
    vwrite_set_read_only(&state, false);
    vwrite_on_bus_reset(&state);
    return !vwrite_read_only(&state);
}

/* The computer deletes LOG007.CSV: its slot is turned to 0xE5, then its FAT entry zeroed. */
static bool deletes_a_file(void) {
    uint8_t sector[SECTOR];
    show(LOGS_PLACE, sector);
    sector[64] = 0xE5;
    if (!on_usb_write(LOGS_PLACE, sector, false) || delete_handed() != 0) return false;
    show(FAT_PLACE, sector);
    sector[88] = sector[89] = 0;
    return on_usb_write(FAT_PLACE, sector, false);
}

int main(void) {
    vwrite_end end;
    if (!start() || !deletes_a_file()) return 1;
    on_tick(10, true);
    if (delete_handed() != 1) return 1;
    if (vwrite_release(&state, files, NFILES, fat, NFAT, area, sizeof area, &end) != 0 || end.ended != 1) return 1;
    printf("released; the other file is kept\n");
    return delete_handed() == 0 ? 0 : 1;
}
