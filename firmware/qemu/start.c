/* What a Cortex-M begins with in QEMU: the vectors, memory of zeros, and the files of the host over semihosting. */
#include <stdint.h>
#include <stdlib.h>

extern uint32_t bss_begin, bss_end, stack_top;
extern void initialise_monitor_handles(void);
extern int main(void);

void _init(void) {}
void _fini(void) {}

static void fault(void) {
    exit(99);
}

void reset(void) {
    for (uint32_t *p = &bss_begin; p < &bss_end; p++) *p = 0;
    initialise_monitor_handles();
    exit(main());
}

__attribute__((section(".vectors"), used)) static void *const vectors[16] = {
    &stack_top, (void *)reset, (void *)fault, (void *)fault, (void *)fault, (void *)fault, (void *)fault, 0, 0, 0, 0, (void *)fault, (void *)fault, 0, (void *)fault,
    (void *)fault
};
