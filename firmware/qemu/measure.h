/* What a call costs: -DPAINT its deepest stack, by painting what lies below the caller's frame; -DCOUNT its instructions, by the SysTick timer of a Cortex-M in
 * QEMU with -icount shift=0, where an instruction takes 1 ns and a tick 40. Else nothing is measured. */
#ifndef MEASURE_H
#define MEASURE_H

#include <stdint.h>
#include <stdio.h>

enum kind {
    START, SET_READ_ONLY, MODE_RESET, READ_ONLY, WRITE, STAGED_READ, PAIR, ROOT_REC, QUERY, COMPLETE, BODY_CHECK, CRC16, STRICT_NAME, OWNER, DIR_KIND, NCLUS,
    POLL, RELEASE, RELEASE_ALL, BUS_RESET, FIND_HANDED, REPORT_GONE, NAMED, AFTER_WRITE, AFTER_END, AFTER_GONE, KINDS
};

static const char *const kind_names[KINDS] = {
    "start", "set_read_only", "on_bus_reset", "read_only", "write", "staged_read", "pair", "root_rec", "boot_state", "complete", "body_check", "crc16",
    "strict_name", "owner", "dir_kind", "nclus", "poll", "release", "release_all", "vdisk_on_bus_reset", "find_handed", "report_gone", "named", "after_write",
    "after_end", "after_gone"
};

extern uint32_t kind_calls[KINDS];
extern uint64_t kind_total[KINDS];
extern uint32_t kind_most[KINDS];

static inline void measured(enum kind kind, uint32_t cost) {
    kind_calls[kind]++;
    kind_total[kind] += cost;
    if (cost > kind_most[kind]) kind_most[kind] = cost;
}

#if defined(PAINT)
#define UNIT "bytes of stack"
#define PAINT_BYTES 65536u
#define PAINT_WORD 0xC5A5A5C5u
#if defined(__x86_64__)
#define STACK_POINTER(p) __asm__ volatile("mov %%rsp, %0" : "=r"(p))
#else
#define STACK_POINTER(p) __asm__ volatile("mov %0, sp" : "=r"(p))
#endif
#define CALL(kind, call)                                                              \
    do {                                                                              \
        uintptr_t sp_;                                                                \
        STACK_POINTER(sp_);                                                           \
        volatile uint32_t *low_ = (volatile uint32_t *)(sp_ - PAINT_BYTES);           \
        for (volatile uint32_t *p_ = low_; (uintptr_t)p_ < sp_; p_++) *p_ = PAINT_WORD; \
        call;                                                                         \
        while ((uintptr_t)low_ < sp_ && *low_ == PAINT_WORD) low_++;                  \
        measured(kind, (uint32_t)(sp_ - (uintptr_t)low_));                            \
    } while (0)
#elif defined(COUNT)
#define UNIT "instructions"
#define TICK (*(volatile uint32_t *)0xE000E018)
#define CALL(kind, call)                                       \
    do {                                                       \
        uint32_t from_ = TICK;                                 \
        call;                                                  \
        measured(kind, ((from_ - TICK) & 0xFFFFFFu) * 40);     \
    } while (0)
#else
#define UNIT ""
#define CALL(kind, call) \
    do {                 \
        call;            \
    } while (0)
#endif

static inline void measure_begin(void) {
#ifdef COUNT
    *(volatile uint32_t *)0xE000E014 = 0xFFFFFFu;
    *(volatile uint32_t *)0xE000E018 = 0;
    *(volatile uint32_t *)0xE000E010 = 5;
#endif
}

static inline void measure_tell(void) {
    for (int k = 0; k < KINDS && *UNIT; k++) {
        if (!kind_calls[k]) continue;
        fprintf(stderr, "%-20s %10lu calls  mean %9lu  most %9lu %s\n", kind_names[k], (unsigned long)kind_calls[k],
                (unsigned long)(kind_total[k] / kind_calls[k]), (unsigned long)kind_most[k], UNIT);
    }
}

#endif
