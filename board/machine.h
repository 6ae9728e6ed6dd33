/* What an image on the board has: the UART, what the library asks for, and a look at the guard below the stack. */
#ifndef MACHINE_H
#define MACHINE_H
#include <stddef.h>
#include <stdint.h>

void *memcpy(void *to, const void *from, size_t length);
void *memset(void *to, int byte, size_t length);
int memcmp(const void *a, const void *b, size_t length);

void print(const char *text);
void print_number(uint64_t number);
/* The counter of the board's clock. */
static inline uint64_t ticks(void) {
    uint64_t now;
    __asm__ volatile("isb\n\tmrs %0, cntvct_el0" : "=r"(now));
    return now;
}
/* Ends the emulator. */
void power_off(void);
/* Calls a function on another stack. */
void call_on(void *stack_top, void (*function)(void));
/* Whether no byte below the stack has been written since the start. */
int guard_is_whole(void);
/* How many bytes of the stack have been written since the start. */
size_t stack_used(void);
/* For an image to define: an exception was taken, with its syndrome and its address. */
void trapped(uint64_t syndrome, uint64_t address);
#endif
