/* The largest record, 4 banks and 32 images, in both copies of an area, made by plain code: for the programs that
 * measure (c/stack.c, bench/crc). Include meanderpeg.h and string.h first. */
enum { BANKS = 4, IMAGES = 32, COPY = 8192, ENTRY = 32 + 24 * BANKS, RECORD = 40 + IMAGES * ENTRY };

static uint8_t area[MEANDERPEG_AREA_BYTES];
static uint32_t stores[MEANDERPEG_STORE_NUMBERS];

static void put(uint8_t *at, uint64_t value, int bytes) {
    for (int i = 0; i < bytes; i++) at[i] = (uint8_t)(value >> (8 * i));
}

/* The CRC (R4), bit by bit. */
static uint32_t plain_crc(const uint8_t *bytes, size_t length) {
    uint32_t crc = 0xffffffff;
    for (size_t i = 0; i < length; i++) {
        crc ^= bytes[i];
        for (int bit = 0; bit < 8; bit++) crc = crc >> 1 ^ (crc & 1 ? 0xedb88320 : 0);
    }
    return ~crc;
}

/* All accepted, or image 31 of bank 0 not, in both copies; active is bank 0. Type GUIDs differ in their last byte. */
static void make_area(uint32_t last_accepted) {
    memset(area, 0, sizeof area);
    put(area + 4, 2, 4);
    put(area + 12, 1, 4);
    put(area + 16, RECORD, 4);
    put(area + 20, 32, 2);
    put(area + 24, last_accepted ? 0xfcfcfcfc : 0xfcfcfcfe, 4);
    area[32] = BANKS;
    put(area + 34, IMAGES, 2);
    put(area + 36, ENTRY, 2);
    put(area + 38, 24, 2);
    for (size_t i = 0; i < IMAGES; i++) {
        uint8_t *entry = area + 40 + i * ENTRY;
        entry[15] = (uint8_t)(i + 1);
        for (size_t bank = 0; bank < BANKS; bank++) put(entry + 32 + 24 * bank + 16, 1, 4);
    }
    put(area + 40 + (IMAGES - 1) * ENTRY + 32 + 16, last_accepted, 4);
    put(area, plain_crc(area + 4, RECORD - 4), 4);
    memcpy(area + COPY, area, RECORD);
}

static void do_stores(size_t pairs) {
    for (size_t i = 0; i < pairs; i++) put(area + stores[2 * i], stores[2 * i + 1], 4);
}
