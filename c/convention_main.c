/* Calls c/convention.c, which was compiled for another calling convention. */
#include "../include/meanderpeg.h"

__attribute__((sysv_abi)) int wrong_calls(uint8_t *area, uint32_t *stores);

int main(void) {
    static uint8_t area[MEANDERPEG_AREA_BYTES];
    static uint32_t stores[MEANDERPEG_STORE_NUMBERS];
    return wrong_calls(area, stores);
}
