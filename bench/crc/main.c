/* The CRC (R4) and the functions that work it, on the largest record, 4 banks and 32 images: each CRC compared with the
 * plain division, and one call of each to count instructions of. See `run`. */
#include "meanderpeg.h"

#include <stdio.h>
#include <string.h>
#include <zlib.h>

#include "../../c/largest.h"

enum { COVERED = RECORD - 4 };

/* crates/record_crc, exported by `run` */
uint32_t crc_of(const uint8_t *bytes, size_t length);

static uint32_t table[256];

/* ---- Others ---- */

__attribute__((noinline)) uint32_t plain_division(const uint8_t *bytes, size_t length) {
    return plain_crc(bytes, length);
}

static void make_table(void) {
    for (uint32_t byte = 0; byte < 256; byte++) {
        uint32_t entry = byte;
        for (int bit = 0; bit < 8; bit++) entry = entry >> 1 ^ (entry & 1 ? 0xedb88320 : 0);
        table[byte] = entry;
    }
}

__attribute__((noinline)) uint32_t plain_table(const uint8_t *bytes, size_t length) {
    uint32_t crc = 0xffffffff;
    for (size_t i = 0; i < length; i++) crc = table[(crc ^ bytes[i]) & 255] ^ crc >> 8;
    return ~crc;
}

__attribute__((noinline)) uint32_t by_zlib(const uint8_t *bytes, size_t length) {
    return (uint32_t)crc32(0, bytes, (uInt)length);
}

/* ---- What is counted ---- */

static struct meanderpeg_answer begin(void) {
    struct meanderpeg_session regular = {MEANDERPEG_REGULAR, 0, 0};
    make_area(1);
    return meanderpeg_begin(regular, area, sizeof area, stores, MEANDERPEG_STORE_NUMBERS);
}

static struct meanderpeg_answer cancel(void) {
    struct meanderpeg_answer answer = begin();
    do_stores(answer.pairs);
    return meanderpeg_cancel(answer.session, area, sizeof area, stores, MEANDERPEG_STORE_NUMBERS);
}

static struct meanderpeg_answer accept(void) {
    struct meanderpeg_session trial = {MEANDERPEG_TRIAL, 0, 0};
    uint8_t guid[MEANDERPEG_GUID_BYTES] = {0};
    make_area(0);
    guid[15] = IMAGES;
    return meanderpeg_accept(trial, area, sizeof area, guid, stores, MEANDERPEG_STORE_NUMBERS);
}

static struct meanderpeg_answer start_up(void) {
    make_area(1);
    return meanderpeg_start_up(area, sizeof area, 0);
}

static struct meanderpeg_answer repair(void) {
    make_area(1);
    return meanderpeg_repair(area, sizeof area, stores, MEANDERPEG_STORE_NUMBERS);
}

static const struct {
    const char *name;
    uint32_t (*crc)(const uint8_t *, size_t);
} crcs[] = {{"plain_division", plain_division}, {"crc_of", crc_of}, {"plain_table", plain_table}, {"by_zlib", by_zlib}};

static const struct {
    const char *name;
    struct meanderpeg_answer (*call)(void);
} calls[] = {{"meanderpeg_start_up", start_up}, {"meanderpeg_repair", repair}, {"meanderpeg_cancel", cancel},
             {"meanderpeg_begin", begin}, {"meanderpeg_accept", accept}};

enum { CRCS = sizeof crcs / sizeof *crcs, CALLS = sizeof calls / sizeof *calls };

/* Any bytes. */
static void fill_area(void) {
    uint32_t seed = 12345;
    for (size_t i = 0; i < sizeof area; i++) {
        seed = seed * 1103515245 + 12345;
        area[i] = (uint8_t)(seed >> 16);
    }
}

/* Whether each CRC is the plain division's: every length up to 600 and the record's, from eight places. */
static int crcs_agree(void) {
    fill_area();
    for (size_t k = 1; k < CRCS; k++)
        for (size_t from = 0; from < 8; from++)
            for (size_t length = 0; length <= 601; length++) {
                size_t n = length <= 600 ? length : COVERED;
                if (crcs[k].crc(area + from, n) == plain_division(area + from, n)) continue;
                printf("%s differs, %zu bytes from %zu\n", crcs[k].name, n, from);
                return 0;
            }
    return 1;
}

/* Whether each call is accepted, and the record has its CRC once the stores are done. */
static int calls_agree(void) {
    for (size_t k = 0; k < CALLS; k++) {
        struct meanderpeg_answer answer = calls[k].call();
        uint8_t crc[4];
        do_stores(answer.pairs);
        put(crc, plain_crc(area + 4, COVERED), 4);
        if (answer.refusal == MEANDERPEG_OK && !memcmp(area, crc, 4) && !memcmp(area, area + COPY, RECORD)) continue;
        printf("%s: refusal %u, or a wrong record\n", calls[k].name, (unsigned)answer.refusal);
        return 0;
    }
    return 1;
}

/* With no argument the comparison; else one call of the function of that name. */
int main(int count, char **arguments) {
    make_table();
    if (count == 1) return !(crcs_agree() && calls_agree());
    fill_area();
    for (size_t k = 0; k < CRCS; k++)
        if (!strcmp(arguments[1], crcs[k].name)) return crcs[k].crc(area + 4, COVERED) == 0;
    for (size_t k = 0; k < CALLS; k++)
        if (!strcmp(arguments[1], calls[k].name)) return calls[k].call().refusal != MEANDERPEG_OK;
    return 2;
}
