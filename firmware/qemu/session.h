/* One session of the library: what it is lent, and every exported call on it, measured, with its answer and what it left in one hash. */
#ifndef SESSION_H
#define SESSION_H

#include "measure.h"
#include "vwrite.h"

enum { FILES = 400, ENTRIES = 65526, AREA_BYTES = 16760832 };

extern vwrite_state w;
extern vwrite_file files[FILES];
extern vwrite_len nfiles;
extern uint16_t fat[ENTRIES];
extern uint8_t *const area;
extern vwrite_len nfat, narea;
extern uint32_t hash;

void session_new(void);
void mix(const void *bytes, uint32_t n);
void mix_number(uint64_t n);
/* Every field of the state, and the table: padding is nobody's. */
void mix_session(void);

uint8_t start(const vwrite_file *table, vwrite_len n, uint32_t first);
void set_read_only(bool on);
void mode_reset(void);
uint8_t put(uint32_t lba, const uint8_t *shown, vwrite_len nshown, const uint8_t *written, vwrite_len nwritten, bool busy);
uint8_t tick(uint64_t clock, bool mounted);
uint8_t release(void);
uint8_t release_all(bool reset);
uint8_t bus_reset(void);
bool is_handed(vwrite_len row);
uint8_t find_handed(vwrite_handed *handed);
uint8_t report_gone(vwrite_len row);
/* The calls that only read, of one cluster, slot and size. */
void queries(uint32_t c, vwrite_len slot, uint32_t size, const uint8_t *sector);
/* The calls that tell why a file is handed, of one row, after each kind of call. */
void reasons(vwrite_len row, uint8_t number, uint32_t lba, const uint8_t *shown, const uint8_t *written);

#endif
