/* Replays recordings (docs/RECORDING.md): the numbers and the rows handed in the form of `replay --numbers`, with a hash of the state and the table after every
 * call beside each. The file LIST names the recordings. */
#include "session.h"
#include <stdlib.h>
#include <string.h>

static char line[1 << 14];
static vwrite_file table[FILES];
static uint8_t shown[512], written[512];
static uint64_t entries, bytes;

static uint64_t number(char **p) {
    while (**p == ' ' || **p == ':') ++*p;
    return strtoull(*p, p, 10);
}

static unsigned digit(char c) {
    return c <= '9' ? (unsigned)(c - '0') : (unsigned)((c | 32) - 'a' + 10);
}

static void hex(char **p, uint8_t *out) {
    while ((**p >= '0' && **p <= '9') || ((**p | 32) >= 'a' && (**p | 32) <= 'f')) {
        *out++ = (uint8_t)(digit((*p)[0]) * 16 + digit((*p)[1]));
        *p += 2;
    }
}

/* A sector: hexadecimal, `z` for zeros, `=` for as the other; then the bytes that differ. */
static void sector(char **p, uint8_t *out, const uint8_t *other) {
    while (**p == ' ') ++*p;
    if (**p == 'z' || **p == '=') {
        if (**p == 'z') memset(out, 0, 512);
        else memcpy(out, other, 512);
        ++*p;
    } else {
        hex(p, out);
    }
    if (**p != '@') return;
    do {
        ++*p;
        uint64_t at = strtoull(*p, p, 10);
        ++*p;
        hex(p, out + at);
    } while (**p == ',');
}

static void bad(unsigned long at) {
    fprintf(stderr, "line %lu is not one that is taken here: %.40s\n", at, line);
    exit(3);
}

static void tell(unsigned long at, uint8_t no) {
    printf("%lu %u %08lx\n", at, no, (unsigned long)hash);
}

static void read_start(unsigned long at, char *p) {
    uint32_t first = (uint32_t)number(&p);
    vwrite_len n = 0;
    while (*p == ' ') {
        if (n == FILES) bad(at);
        vwrite_file *f = &table[n++];
        f->id = (uint16_t)number(&p);
        f->slot = (uint16_t)number(&p);
        f->vstart = (uint16_t)number(&p);
        f->src = (uint16_t)number(&p);
        f->ssize = (uint32_t)number(&p);
        f->vsize = (uint32_t)number(&p);
    }
    tell(at, start(table, n, first));
}

static void read_write(unsigned long at, char *p) {
    uint32_t lba = (uint32_t)number(&p);
    bool busy = number(&p);
    number(&p);
    sector(&p, shown, shown);
    sector(&p, written, shown);
    tell(at, put(lba, shown, 512, written, 512, busy));
    queries(lba / 64, lba % 600, lba, written);
    if (nfiles) reasons(lba % nfiles, 0, lba, shown, written);
}

static void read_medium(unsigned long at, char *p) {
    entries = nfat = number(&p);
    bytes = narea = number(&p);
    if (nfat > ENTRIES || narea > AREA_BYTES) bad(at);
    memset(fat, 0, sizeof fat);
    memset(area, (int)number(&p), (uint32_t)narea);
}

/* What is set in the medium, or lent of it. */
static void read_part(unsigned long at, char *p) {
    uint64_t a = number(&p);
    if (!strncmp(line, "mfill ", 6)) {
        uint64_t from = number(&p), to = number(&p);
        if (to > entries) bad(at);
        while (from < to) fat[from++] = (uint16_t)a;
    } else if (!strncmp(line, "mfat ", 5)) {
        while (*p == ' ' && a < entries) fat[a++] = (uint16_t)number(&p);
    } else if (!strncmp(line, "mdata ", 6)) {
        p += *p == ' ';
        if (a + strlen(p) / 2 > bytes) bad(at);
        hex(&p, area + a);
    } else {
        nfat = a;
        narea = number(&p);
        if (nfat > entries || narea > bytes) bad(at);
    }
}

static void read_mode(char *p) {
    set_read_only(!number(&p));
    mode_reset();
}

static bool word(const char *name, char **p) {
    size_t n = strlen(name);
    if (strncmp(line, name, n) || (line[n] != ' ' && line[n] != '\n' && line[n] != 0)) return false;
    *p = line + n;
    return true;
}

static void call(unsigned long at) {
    char *p;
    if (word("medium", &p)) read_medium(at, p);
    else if (word("mfill", &p) || word("mfat", &p) || word("mdata", &p) || word("lend", &p)) read_part(at, p);
    else if (word("start", &p)) read_start(at, p);
    else if (word("rw", &p)) read_mode(p);
    else if (word("set_read_only", &p)) set_read_only(number(&p));
    else if (word("bus_reset_w", &p)) mode_reset();
    else if (word("write", &p)) read_write(at, p);
    else if (word("poll", &p)) {
        uint64_t clock = number(&p);
        number(&p);
        tell(at, tick(clock, number(&p)));
    } else if (word("release", &p)) tell(at, release());
    else if (word("release_all", &p)) tell(at, release_all(number(&p)));
    else if (word("bus_reset", &p)) tell(at, bus_reset());
    else if (word("gone", &p)) tell(at, report_gone(number(&p)));
    else if (!word("handed", &p) && !word("state", &p) && !word("end", &p)) bad(at);
}

static void replay(const char *name) {
    FILE *f = fopen(name, "r");
    vwrite_handed handed;
    unsigned long at = 0;
    if (!f) {
        fprintf(stderr, "%s can't be read\n", name);
        exit(3);
    }
    session_new();
    while (fgets(line, sizeof line, f)) {
        at++;
        line[strcspn(line, "\r\n")] = 0;
        if (line[0] != '#' && line[0] != 0) call(at);
    }
    fclose(f);
    find_handed(&handed);
    mix(area, (uint32_t)narea);
    printf("handed");
    for (vwrite_len j = 0; j < nfiles; j++)
        if (is_handed(j)) printf(" %u", (unsigned)j);
    printf("\nmedium %08lx\n", (unsigned long)hash);
}

int main(void) {
    static char name[1024];
    FILE *list = fopen(LIST, "r");
    if (!list) return 3;
    measure_begin();
    while (fgets(name, sizeof name, list)) {
        name[strcspn(name, "\n")] = 0;
        printf("recording %s\n", strrchr(name, '/') ? strrchr(name, '/') + 1 : name);
        replay(name);
    }
    measure_tell();
    return 0;
}
