#include "machine.h"

static volatile uint32_t *const uart = (volatile uint32_t *)0x09000000;
static const uint64_t paint = 0x5aa55aa55aa55aa5; /* start.S */
extern uint64_t guard_bottom[], stack_bottom[], stack_top[];

void *memcpy(void *to, const void *from, size_t length) {
    for (size_t i = 0; i < length; i++) ((volatile uint8_t *)to)[i] = ((const uint8_t *)from)[i];
    return to;
}

void *memset(void *to, int byte, size_t length) {
    for (size_t i = 0; i < length; i++) ((volatile uint8_t *)to)[i] = (uint8_t)byte;
    return to;
}

int memcmp(const void *a, const void *b, size_t length) {
    for (size_t i = 0; i < length; i++)
        if (((const uint8_t *)a)[i] != ((const uint8_t *)b)[i]) return 1;
    return 0;
}

void print(const char *text) {
    while (*text) *uart = (uint8_t)*text++;
}

void print_number(uint64_t number) {
    if (number > 9) print_number(number / 10);
    *uart = (uint32_t)('0' + number % 10);
}

int guard_is_whole(void) {
    for (uint64_t *at = guard_bottom; at < stack_bottom; at++)
        if (*at != paint) return 0;
    return 1;
}

size_t stack_used(void) {
    uint64_t *at = stack_bottom;
    while (at < stack_top && *at == paint) at++;
    return (size_t)((uint8_t *)stack_top - (uint8_t *)at);
}
