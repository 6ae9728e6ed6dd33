/* Does what the library must not do: the board must trap it, else board/run would not show it there. */
#include "machine.h"

void trapped(uint64_t syndrome, uint64_t address) {
    (void)address;
    /* a data abort, or access to vector registers */
    print(syndrome >> 26 == 0x25 || syndrome >> 26 == 0x07 ? "trapped\n" : "another trap\n");
    power_off();
}

int main(void) {
#ifdef UNALIGNED
    static uint64_t words[2];
    uint32_t word;
    __asm__ volatile("ldr %w0, [%1, #1]" : "=r"(word) : "r"(words) : "memory");
#elif defined VECTOR
    __asm__ volatile(".arch_extension fp\n\tfmov d0, xzr");
#endif
    print("not trapped\n");
    return 0;
}
