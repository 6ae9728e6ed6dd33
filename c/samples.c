/* The rules' samples 1 to 8 and 12 to 14, a capsule taken apart, an update from Begin to Accept, directories written
 * and read, and capsules packed and read, through the functions of include/meanderpeg.h. Prints what came out; c/run
 * compares it with c/expected. The areas and their CRC are made here, by this program's own code, so that nothing of
 * the library checks itself. */
#include "../include/meanderpeg.h"

#include <inttypes.h>
#include <stdio.h>
#include <stdlib.h>
#include <string.h>

static void put(uint8_t *at, uint64_t value, int bytes) {
    for (int i = 0; i < bytes; i++) at[i] = (uint8_t)(value >> (8 * i));
}

static void print_bytes(const uint8_t *bytes, size_t length) {
    for (size_t i = 0; i < length; i++) printf("%02x", bytes[i]);
    printf("\n");
}

/* ---- The window and the scattered list: samples 1 to 8 ---- */

enum { BASE = 0x1000, SMALL = 256, LARGE = 8192 };

static uint8_t window[LARGE];

static void descriptor(size_t offset, uint64_t length, uint64_t address) {
    put(window + offset, length, 8);
    put(window + offset + 8, address, 8);
}

/* Every byte of the window has a value of its own, so that a wrong one shows; then the list. */
static void fill_window(void) {
    for (size_t i = 0; i < LARGE; i++) window[i] = (uint8_t)(i * 7 + i / 256);
}

static void gather(const char *name, size_t length) {
    static uint8_t before[LARGE];
    memcpy(before, window, LARGE);
    struct meanderpeg_gathered gathered = {99, 99};
    uint32_t refusal = meanderpeg_gather(window, length, BASE, BASE, &gathered);
    if (refusal == MEANDERPEG_OK) {
        printf("%s: place 0x%" PRIX64 ", total %" PRIu64 "\n", name, gathered.address, gathered.total);
        return;
    }
    int kept = gathered.address == 99 && gathered.total == 99 && memcmp(before, window, LARGE) == 0;
    printf("%s: refusal %" PRIu32 ", %s\n", name, refusal, kept ? "nothing altered" : "ALTERED");
}

/* Samples 1 to 4 and 7: two blocks and an end at 0x1020. */
static void two_blocks(const char *name, uint64_t length1, uint64_t address1, uint64_t length2, uint64_t address2) {
    fill_window();
    descriptor(0, length1, address1);
    descriptor(16, length2, address2);
    descriptor(32, 0, 0);
    gather(name, SMALL);
}

/* Sample 8: one-byte blocks behind the list, from its last to its first, and an end. */
static void many_blocks(const char *name, size_t blocks) {
    fill_window();
    size_t list = 16 * (blocks + 1);
    for (size_t i = 0; i < blocks; i++) descriptor(16 * i, 1, BASE + list + blocks - 1 - i);
    descriptor(16 * blocks, 0, 0);
    gather(name, LARGE);
    size_t wrong = 0;
    for (size_t i = 0; i < blocks; i++) wrong += window[list + blocks + i] != window[list + blocks - 1 - i];
    printf("   bytes that differ from the blocks in list order: %s\n", wrong == 0 ? "none" : "some");
}

static void window_samples(void) {
    two_blocks("1", 4, 0x1040, 3, 0x1050);
    printf("   gathered ");
    print_bytes(window + 0x30, 7);
    two_blocks("2", 4, 0x1040, 12, 0x1050);
    two_blocks("3", 4, 0x1040, 13, 0x1050);
    two_blocks("4, at 0x0FFF", 4, 0x0FFF, 3, 0x1050);
    two_blocks("4, at 0x10FC", 4, 0x10FC, 3, 0x1050);
    two_blocks("4, at 0x10FD", 4, 0x10FD, 3, 0x1050);
    fill_window();
    descriptor(0, 0, BASE);
    gather("5", SMALL);
    fill_window();
    descriptor(0, 0, 0);
    gather("6", SMALL);
    two_blocks("7", UINT64_MAX, 0x1040, 3, 0x1050);
    many_blocks("8, 255 blocks", 255);
    many_blocks("8, 256 blocks", 256);
}

/* ---- The capsule: sample 12, and one with a driver and a payload ---- */

static const uint8_t capsule_guid[16] = {0xed, 0xd5, 0xcb, 0x6d, 0x2d, 0xe8, 0x44, 0x4c,
                                         0xbd, 0xa1, 0x71, 0x94, 0x19, 0x9a, 0xd9, 0x2a};

static void capsule_header(uint8_t *capsule, uint32_t header_size, uint32_t size) {
    memcpy(capsule, capsule_guid, 16);
    put(capsule + 16, header_size, 4);
    put(capsule + 20, 0, 4);
    put(capsule + 24, size, 4);
}

/* A driver of 3 bytes; a payload of version 2 with an image of 2 bytes, a vendor code of 1 and a spare byte. */
static size_t make_capsule(uint8_t capsule[99]) {
    memset(capsule, 0, 99);
    capsule_header(capsule, 28, 99);
    uint8_t *body = capsule + 28;
    put(body, 1, 4);
    put(body + 4, 1, 2);
    put(body + 6, 1, 2);
    put(body + 8, 24, 8);
    put(body + 16, 27, 8);
    memcpy(body + 24, "\x01\x02\x03", 3);
    uint8_t *payload = body + 27;
    put(payload, 2, 4);
    memset(payload + 4, 7, 16);
    payload[20] = 5;
    put(payload + 24, 2, 4);
    put(payload + 28, 1, 4);
    put(payload + 32, 9, 8);
    memcpy(payload + 40, "\xa1\xa2\xb1\xff", 4);
    return 99;
}

typedef uint32_t MEANDERPEG_SYSV part_function(const uint8_t *, size_t, size_t, struct meanderpeg_part *);

/* A part, or its refusal; a refusal that altered what was lent shows. */
static void show_part(const char *name, part_function *function, const uint8_t *capsule, size_t length, size_t item) {
    struct meanderpeg_part part = {99, 99};
    uint32_t refusal = function(capsule, length, item, &part);
    if (refusal == MEANDERPEG_OK) {
        printf("   %s at %zu: ", name, part.start);
        print_bytes(capsule + part.start, part.length);
        return;
    }
    int kept = part.start == 99 && part.length == 99;
    printf("   %s: refusal %" PRIu32 ", %s\n", name, refusal, kept ? "nothing altered" : "ALTERED");
}

static void show_item(const uint8_t *capsule, size_t length, size_t item) {
    printf("item %zu\n", item);
    show_part("item", meanderpeg_capsule_item, capsule, length, item);
    show_part("image", meanderpeg_capsule_image, capsule, length, item);
    show_part("vendor code", meanderpeg_capsule_vendor_code, capsule, length, item);
    uint8_t guid[MEANDERPEG_GUID_BYTES], index = 0xee;
    uint64_t instance = 0xee;
    memset(guid, 0xee, sizeof guid);
    uint32_t refusals[3] = {meanderpeg_capsule_image_index(capsule, length, item, &index),
                            meanderpeg_capsule_hardware_instance(capsule, length, item, &instance),
                            meanderpeg_capsule_type_guid(capsule, length, item, guid)};
    printf("   refusals %" PRIu32 " %" PRIu32 " %" PRIu32 ", index %u, instance %" PRIu64 ", type GUID ", refusals[0],
           refusals[1], refusals[2], index, instance);
    print_bytes(guid, sizeof guid);
}

static void check(const char *name, const uint8_t *capsule, size_t length) {
    struct meanderpeg_counts counts = {99, 99};
    uint32_t refusal = meanderpeg_capsule_check(capsule, length, &counts);
    printf("%s: %" PRIu32 ", drivers %zu, payloads %zu\n", name, refusal, counts.drivers, counts.payloads);
}

static void capsule_samples(void) {
    uint8_t capsule[99];
    memset(capsule, 0, 99);
    check("12, 27 bytes", capsule, 27);
    capsule_header(capsule, 27, 28);
    check("12, HeaderSize 27", capsule, 28);
    capsule_header(capsule, 28, 35);
    put(capsule + 28, 1, 4);
    check("12, body of 7", capsule, 35);
    show_part("item of it", meanderpeg_capsule_item, capsule, 35, 0);
    size_t length = make_capsule(capsule);
    check("capsule", capsule, length);
    for (size_t item = 0; item < 3; item++) show_item(capsule, length, item);
}

/* ---- The record ---- */

enum { COPY = 8192, BANKS = 2, IMAGES = 2, ENTRY = 32 + 24 * BANKS, RECORD = 40 + IMAGES * ENTRY };

static uint8_t area[MEANDERPEG_AREA_BYTES];
static uint32_t stores[MEANDERPEG_STORE_NUMBERS];
static const uint8_t type_guids[IMAGES][16] = {"type GUID of A.", "type GUID of B."};

static uint32_t crc32(const uint8_t *bytes, size_t length) {
    uint32_t crc = 0xffffffff;
    for (size_t i = 0; i < length; i++) {
        crc ^= bytes[i];
        for (int bit = 0; bit < 8; bit++) crc = crc >> 1 ^ (crc & 1 ? 0xedb88320 : 0);
    }
    return ~crc;
}

/* Two banks, two images, all accepted, active 0, previous 1, in both copies. */
static void make_area(void) {
    memset(area, 0xff, sizeof area);
    uint8_t *record = area;
    memset(record, 0, RECORD);
    put(record + 4, 2, 4);
    put(record + 12, 1, 4);
    put(record + 16, RECORD, 4);
    put(record + 20, 32, 2);
    put(record + 24, 0xfffffcfc, 4);
    record[32] = BANKS;
    put(record + 34, IMAGES, 2);
    put(record + 36, ENTRY, 2);
    put(record + 38, 24, 2);
    for (int i = 0; i < IMAGES; i++) {
        uint8_t *entry = record + 40 + i * ENTRY;
        memcpy(entry, type_guids[i], 16);
        for (int bank = 0; bank < BANKS; bank++) put(entry + 32 + 24 * bank + 16, 1, 4);
    }
    put(record, crc32(record + 4, RECORD - 4), 4);
    memcpy(area + COPY, record, RECORD);
}

/* Does the first n stores of the list, in list order. */
static void apply(size_t n) {
    for (size_t i = 0; i < n; i++) put(area + stores[2 * i], stores[2 * i + 1], 4);
}

static uint32_t soundness(void) {
    uint32_t copies = 99;
    uint32_t refusal = meanderpeg_soundness(area, sizeof area, &copies);
    return refusal == MEANDERPEG_OK ? copies : 100 + refusal;
}

typedef struct meanderpeg_session session;
typedef struct meanderpeg_answer answer;

/* Shows what a call answered. */
static void show(const char *name, answer a) {
    printf("%s: %" PRIu32 ", session %" PRIu32 " %" PRIu32 " %" PRIu32 ", pairs %zu", name, a.refusal, a.session.kind,
           a.session.bank, a.session.set, a.pairs);
    if (a.refusal != MEANDERPEG_OK)
        printf(", told %" PRIu32 " %" PRIu32 ": %s", a.told[0], a.told[1], meanderpeg_refusal_text(a.refusal));
    printf("\n");
}

/* The same, does the stores, and gives the next session. */
static session done(const char *name, answer a) {
    show(name, a);
    if (a.refusal != MEANDERPEG_OK) return a.session;
    apply(a.pairs);
    if (soundness() != 7) printf("COPIES NOT SOUND AND EQUAL\n");
    return a.session;
}

static void show_report(void) {
    uint8_t text[MEANDERPEG_REPORT_BYTES] = {0};
    size_t length = meanderpeg_report(area, sizeof area, text, sizeof text);
    fwrite(text, 1, length, stdout);
}

static session start_up(uint32_t booted) {
    printf("bank %" PRIu32 ", ", booted);
    answer a = meanderpeg_start_up(area, sizeof area, booted);
    show("start-up", a);
    return a.session;
}

static session begin(session s, size_t numbers) {
    return done("begin", meanderpeg_begin(s, area, sizeof area, stores, numbers));
}

/* Select previous, whose stores fail after n: the caller is told no next session. */
static void select_previous_fails(session s, size_t n) {
    show("select previous, failing",
         meanderpeg_select_previous(s, area, sizeof area, stores, MEANDERPEG_STORE_NUMBERS));
    apply(n);
}

/* Begin, with the power cut after n of its stores. */
static void begin_cut(session s, size_t n) {
    show("begin, cut", meanderpeg_begin(s, area, sizeof area, stores, MEANDERPEG_STORE_NUMBERS));
    apply(n);
}

static session commit(session s, int image, uint32_t request) {
    uint8_t none[MEANDERPEG_GUID_BYTES] = {0};
    const uint8_t *guid = image < IMAGES ? type_guids[image] : none;
    return done("commit",
                meanderpeg_commit(s, area, sizeof area, guid, request, stores, MEANDERPEG_STORE_NUMBERS));
}

static session end(session s) {
    return done("end", meanderpeg_end(s, area, sizeof area, stores, MEANDERPEG_STORE_NUMBERS));
}

static session cancel(session s) {
    return done("cancel", meanderpeg_cancel(s, area, sizeof area, stores, MEANDERPEG_STORE_NUMBERS));
}

static session accept(session s, int image) {
    return done("accept", meanderpeg_accept(s, area, sizeof area, type_guids[image], stores, MEANDERPEG_STORE_NUMBERS));
}

static session select_previous(session s) {
    return done("select previous", meanderpeg_select_previous(s, area, sizeof area, stores, MEANDERPEG_STORE_NUMBERS));
}

static void repair(void) {
    printf("copies %" PRIu32 ", ", soundness());
    (void)done("repair", meanderpeg_repair(area, sizeof area, stores, MEANDERPEG_STORE_NUMBERS));
}

static void record_samples(void) {
    make_area();
    session s = {MEANDERPEG_REGULAR, 0, 0};
    printf("13, 4,199 numbers: ");
    s = begin(s, 4199);
    printf("13, 4,200 numbers: ");
    s = begin(s, 4200);
    make_area();
    printf("14, ");
    (void)start_up(2);
    show("area of 16,383: start-up", meanderpeg_start_up(area, sizeof area - 1, 0));
    session unknown = {9, 8, 7}, none = {0, 0, 0};
    printf("unknown session: ");
    (void)begin(unknown, 4200);
    printf("no session: ");
    (void)begin(none, 4200);
}

/* From Begin to Accept: A is committed as accepted, B not, so that the new bank starts as Trial. */
static void update(void) {
    make_area();
    session s = start_up(0);
    s = begin(s, MEANDERPEG_STORE_NUMBERS);
    show_report();
    s = commit(s, 0, MEANDERPEG_IMAGE_ACCEPTED);
    s = commit(s, IMAGES, MEANDERPEG_IMAGE_ACCEPTED);
    s = end(s);
    s = commit(s, 1, MEANDERPEG_IMAGE_UNACCEPTED);
    s = end(s);
    (void)start_up(0);
    s = start_up(1);
    show_report();
    s = accept(s, 0);
    s = accept(s, 1);
    show_report();
}

/* The other ways: an update cancelled, one that falls back to the previous bank, a change that is cut and repaired. */
static void other_ways(void) {
    make_area();
    session s = start_up(0);
    s = begin(s, MEANDERPEG_STORE_NUMBERS);
    s = cancel(s);
    s = begin(s, MEANDERPEG_STORE_NUMBERS);
    s = commit(s, 0, MEANDERPEG_IMAGE_UNACCEPTED);
    s = commit(s, 1, MEANDERPEG_IMAGE_UNACCEPTED);
    s = end(s);
    s = start_up(0);
    s = select_previous(s);
    s = start_up(0);
    begin_cut(s, 1);
    s = start_up(0);
    s = begin(s, MEANDERPEG_STORE_NUMBERS);
    repair();
    repair();
    s = start_up(0);
    s = begin(s, MEANDERPEG_STORE_NUMBERS);
}

/* A store fails and there is no restart. The session is lost: made again with it, the call is refused by 22, and after
 * a repair it would exchange the banks back. Repair and start-up find that the running bank is the active one. */
static void failed_store(void) {
    make_area();
    session s = start_up(1);
    select_previous_fails(s, 5);
    s = select_previous(s);
    repair();
    show("the lost session: select previous",
         meanderpeg_select_previous(s, area, sizeof area, stores, MEANDERPEG_STORE_NUMBERS));
    s = start_up(1);
    s = select_previous(s);
    show_report();
}

/* A Regular session from before End is not seen to be old: Begin takes the bank that runs. An old Staging one is.
 * With a refusal bank and set come back as they were given. */
static void old_sessions(void) {
    make_area();
    session regular = start_up(0);
    session staging = begin(regular, MEANDERPEG_STORE_NUMBERS);
    staging = commit(staging, 0, MEANDERPEG_IMAGE_ACCEPTED);
    staging = commit(staging, 1, MEANDERPEG_IMAGE_ACCEPTED);
    (void)end(staging);
    show("old Staging: begin", meanderpeg_begin(staging, area, sizeof area, stores, MEANDERPEG_STORE_NUMBERS));
    show("old Regular: begin", meanderpeg_begin(regular, area, sizeof area, stores, MEANDERPEG_STORE_NUMBERS));
    session spoilt = {MEANDERPEG_RESTART, 8, 7};
    show("Restart: begin", meanderpeg_begin(spoilt, area, sizeof area, stores, MEANDERPEG_STORE_NUMBERS));
}

/* The stores of a commit are forgotten: nothing notices, and the image is left unaccepted. Those of Begin: 24. */
static void forgotten_stores(void) {
    make_area();
    session s = start_up(0);
    answer a = meanderpeg_begin(s, area, sizeof area, stores, MEANDERPEG_STORE_NUMBERS);
    show("begin, forgotten", a);
    (void)commit(a.session, 0, MEANDERPEG_IMAGE_ACCEPTED);
    s = begin(s, MEANDERPEG_STORE_NUMBERS);
    s = commit(s, 0, MEANDERPEG_IMAGE_ACCEPTED);
    a = meanderpeg_commit(s, area, sizeof area, type_guids[1], MEANDERPEG_IMAGE_ACCEPTED, stores,
                          MEANDERPEG_STORE_NUMBERS);
    show("commit, forgotten", a);
    s = end(a.session);
    show_report();
}

/* ---- The image directory ---- */

static uint8_t directory[MEANDERPEG_DIRECTORY_BYTES];
static uint32_t words[IMAGES * MEANDERPEG_DIRECTORY_IMAGE_WORDS] = {
    MEANDERPEG_PERMISSION_WRITE | MEANDERPEG_PERMISSION_READ, 0x100000, 2, 5, /* A */
    MEANDERPEG_PERMISSION_ACTIVATE_FIRST, 0x20000, 0, 0xffffffff,             /* B */
};

/* Writes one into so much room of a buffer that holds 0xee, and gives its length; a byte that was altered besides, and
 * with a refusal any, shows. */
static size_t write_directory(size_t area_length, uint32_t booted, size_t words_length, size_t room) {
    size_t length = 99, altered = 0;
    memset(directory, 0xee, sizeof directory);
    uint32_t refusal =
        meanderpeg_directory_write(area, area_length, booted, words, words_length, directory, room, &length);
    size_t written = refusal == MEANDERPEG_OK ? length : 0;
    for (size_t i = written; i < sizeof directory; i++) altered += directory[i] != 0xee;
    printf("bank %" PRIu32 ", write: %" PRIu32 ", length %zu, %s", booted, refusal, length,
           altered == 0 ? "no other byte altered" : "ALTERED");
    if (refusal != MEANDERPEG_OK) printf(": %s", meanderpeg_refusal_text(refusal));
    printf("\n");
    return written;
}

/* What the header shows, and how many images; with a refusal, what was lent. */
static uint32_t show_directory(size_t length) {
    struct meanderpeg_directory shown = {99, 99};
    uint32_t refusal = meanderpeg_directory_check(directory, length, &shown);
    printf("   check: %" PRIu32 ", images %" PRIu32 ", correct_boot %" PRIu32, refusal, shown.images,
           shown.correct_boot);
    if (refusal != MEANDERPEG_OK) printf(": %s", meanderpeg_refusal_text(refusal));
    printf("\n");
    return shown.images;
}

static void show_entry(size_t length, size_t entry) {
    struct meanderpeg_part part = {99, 99};
    struct meanderpeg_directory_entry n = {91, 92, 93, 94, 95};
    uint32_t refusals[2] = {meanderpeg_directory_type_guid(directory, length, entry, &part),
                            meanderpeg_directory_numbers(directory, length, entry, &n)};
    printf("   entry %zu: %" PRIu32 " %" PRIu32 ", permissions %" PRIu32 ", maximum size %" PRIu32
           ", lowest version %" PRIu32 ", version %" PRIu32 ", accepted %" PRIu32 ", type GUID %zu at %zu",
           entry, refusals[0], refusals[1], n.permissions, n.maximum_size, n.lowest_accepted_version, n.version,
           n.accepted, part.length, part.start);
    if (part.length == MEANDERPEG_GUID_BYTES) printf(": %.16s", (const char *)directory + part.start);
    printf("\n");
}

/* The directory of a start from this bank; the last entry shown is past the count. */
static void installed(uint32_t booted) {
    size_t length = write_directory(sizeof area, booted, IMAGES * MEANDERPEG_DIRECTORY_IMAGE_WORDS, sizeof directory);
    uint32_t images = show_directory(length);
    for (size_t entry = 0; entry <= images; entry++) show_entry(length, entry);
}

/* Each refusal of the writer, in their order: what is refused first has all the later faults, too. */
static void refused_writes(void) {
    const size_t size = MEANDERPEG_DIRECTORY_HEADER_BYTES + IMAGES * MEANDERPEG_DIRECTORY_ENTRY_BYTES;
    words[MEANDERPEG_DIRECTORY_IMAGE_WORDS] += 8;
    (void)write_directory(sizeof area - 1, BANKS, 7, size - 1);
    area[4] = area[COPY + 4] = 0;
    (void)write_directory(sizeof area, BANKS, 7, size - 1);
    area[4] = area[COPY + 4] = 2;
    (void)write_directory(sizeof area, BANKS, 7, size - 1);
    (void)write_directory(sizeof area, 1, 7, size - 1);
    (void)write_directory(sizeof area, 1, 8, size - 1);
    words[MEANDERPEG_DIRECTORY_IMAGE_WORDS] -= 8;
    (void)write_directory(sizeof area, 1, 8, size - 1);
    (void)write_directory(sizeof area, 1, 8, size);
}

/* The same of the reader. */
static void refused_reads(size_t length) {
    directory[0] += 1;
    directory[length - 8] += 2;
    const size_t lengths[] = {MEANDERPEG_DIRECTORY_HEADER_BYTES - 1, length - 1, sizeof directory, length};
    for (size_t i = 0; i < 4; i++) {
        if (i == 2) directory[0] -= 1;
        (void)show_directory(lengths[i]);
        show_entry(lengths[i], 0);
    }
    directory[length - 8] -= 2;
    (void)show_directory(length);
}

/* After an update that left B unaccepted: bank 1 is on trial, bank 0 is fallen back to. */
static void directories(void) {
    make_area();
    session s = begin(start_up(0), MEANDERPEG_STORE_NUMBERS);
    s = commit(s, 0, MEANDERPEG_IMAGE_ACCEPTED);
    s = commit(s, 1, MEANDERPEG_IMAGE_UNACCEPTED);
    (void)end(s);
    (void)start_up(0);
    installed(0);
    (void)start_up(1);
    installed(1);
    refused_writes();
    refused_reads(write_directory(sizeof area, 1, 8, sizeof directory));
}

/* ---- Packing ---- */

enum { MOST = MEANDERPEG_CAPSULE_ITEMS, ROOM = 8192 };

static uint8_t room[ROOM];
static const uint8_t images[] = "image of A, image of B", codes[] = "code of B";
enum { IMAGES_LENGTH = sizeof images - 1, CODES_LENGTH = sizeof codes - 1 };
static const uint8_t *drivers;
static size_t drivers_length;
static struct meanderpeg_driver_entry driver_table[MOST + 1];
static struct meanderpeg_payload_entry payload_table[MOST + 1];
static size_t driver_bytes, payload_bytes; /* as many bytes of the tables as are lent */
static uint32_t flags;

#define DRIVERS drivers, drivers_length, driver_table, driver_bytes
#define IMAGES_AND_CODES images, IMAGES_LENGTH, codes, CODES_LENGTH
#define PAYLOADS payload_table, payload_bytes

static void lend(size_t driver_entries, size_t payload_entries) {
    driver_bytes = driver_entries * sizeof *driver_table;
    payload_bytes = payload_entries * sizeof *payload_table;
}

/* A driver and two payloads, A of version 1 without a vendor code, B of version 2 with one; entries behind are as the
 * last. */
static void make_tables(void) {
    static const struct meanderpeg_payload_entry a = {.version = 1, .type_guid = "type GUID of A.", .image_index = 1,
                                                      .image_length = 10, .vendor_code_start = CODES_LENGTH};
    static const struct meanderpeg_payload_entry b = {
        2, "type GUID of B.", 2, {7, 8, 9}, 0x0102030405060708, 12, 10, 0, CODES_LENGTH};
    drivers = (const uint8_t *)"spare driver spare";
    drivers_length = 18;
    flags = MEANDERPEG_FLAG_PERSIST | MEANDERPEG_FLAG_RESET;
    for (size_t i = 0; i <= MOST; i++) {
        driver_table[i] = (struct meanderpeg_driver_entry){6, 6};
        payload_table[i] = i == 0 ? a : b;
    }
    lend(1, 2);
}

/* Asks for the size, packs into so much room of a buffer that holds 0xee, and gives the length; a byte that was altered
 * besides, and with a refusal any, shows. */
static size_t pack(const char *name, size_t room_length) {
    size_t size = 99, length = 99, altered = 0;
    memset(room, 0xee, sizeof room);
    uint32_t asked = meanderpeg_capsule_packed_size(flags, DRIVERS, IMAGES_AND_CODES, PAYLOADS, &size);
    uint32_t refusal = meanderpeg_capsule_pack(flags, DRIVERS, IMAGES_AND_CODES, PAYLOADS, room, room_length, &length);
    size_t written = refusal == MEANDERPEG_OK ? length : 0;
    for (size_t i = written; i < sizeof room; i++) altered += room[i] != 0xee;
    printf("%s: size asked %" PRIu32 ", %zu; packed %" PRIu32 ", %zu; %s", name, asked, size, refusal, length,
           altered == 0 ? "no other byte altered" : "ALTERED");
    if (refusal != MEANDERPEG_OK) printf(": %s", meanderpeg_refusal_text(refusal));
    printf("\n");
    return written;
}

/* Packed, by its bytes, and read back. */
static void packed_and_read(void) {
    make_tables();
    size_t length = pack("a driver, A and B", ROOM);
    print_bytes(room, length);
    check("read back", room, length);
    for (size_t item = 0; item < 3; item++) show_item(room, length, item);
    (void)pack("one byte short", length - 1);
    (void)pack("exact", length);
    (void)pack("one byte more", length + 1);
    lend(0, 0);
    length = pack("nothing", ROOM);
    check("read back", room, length);
}

/* 64 items and one more; tables with a rest that is no entry. */
static void packed_items(void) {
    make_tables();
    lend(MOST / 2, MOST / 2);
    size_t length = pack("64 items", ROOM);
    check("read back", room, length);
    lend(MOST / 2 + 1, MOST / 2);
    (void)pack("65 items", ROOM);
    lend(MOST / 2, MOST / 2 + 1);
    driver_bytes += MEANDERPEG_DRIVER_ENTRY_BYTES - 1;
    payload_bytes -= 1;
    (void)pack("64 items and rests", ROOM);
}

/* A part at the end of a slice of so many bytes, and past it. */
static void part_at_end(const char *name, uint64_t *start, uint64_t *length, uint64_t slice) {
    const struct {
        const char *how;
        uint64_t start, length;
    } tried[] = {{"to the end", slice - 3, 3},
                 {"one byte past it", slice - 2, 3},
                 {"empty at the end", slice, 0},
                 {"empty behind it", slice + 1, 0},
                 {"past all numbers", UINT64_MAX, 2}};
    for (size_t i = 0; i < sizeof tried / sizeof *tried; i++) {
        *start = tried[i].start;
        *length = tried[i].length;
        printf("%s ", name);
        (void)pack(tried[i].how, ROOM);
    }
}

/* Parts at their slices' ends. An empty driver is another refusal. */
static void packed_parts(void) {
    make_tables();
    part_at_end("driver", &driver_table[0].start, &driver_table[0].length, drivers_length);
    make_tables();
    part_at_end("image", &payload_table[1].image_start, &payload_table[1].image_length, IMAGES_LENGTH);
    make_tables();
    part_at_end("vendor code", &payload_table[1].vendor_code_start, &payload_table[1].vendor_code_length, CODES_LENGTH);
}

/* What payloads and flags may be. */
static void packed_values(void) {
    make_tables();
    for (uint32_t version = 0; version < 4; version++) {
        payload_table[1].version = version;
        payload_table[1].hardware_instance = version == 1 ? 0 : 1;
        printf("version %" PRIu32 ", instance %" PRIu64, version, payload_table[1].hardware_instance);
        (void)pack("", ROOM);
    }
    payload_table[1].version = 1;
    (void)pack("version 1, instance 1", ROOM);
    payload_table[1].hardware_instance = (uint64_t)1 << 32;
    (void)pack("version 1, instance 2^32", ROOM);
    make_tables();
    static const uint32_t tried[] = {0, MEANDERPEG_FLAG_PERSIST, MEANDERPEG_FLAG_POPULATE | MEANDERPEG_FLAG_PERSIST,
                                     MEANDERPEG_FLAG_RESET, 0xfffbffff, 0xffffffff, 0xfffeffff};
    for (size_t i = 0; i < sizeof tried / sizeof *tried; i++) {
        uint8_t wanted[4];
        flags = tried[i];
        put(wanted, flags, 4);
        printf("flags 0x%08" PRIx32, flags);
        if (pack("", ROOM) > 0 && memcmp(room + 20, wanted, 4) != 0) printf("OTHER FLAGS PACKED\n");
    }
}

/* Each refusal with all later faults as well, these in other items; the room is too short for any. */
static void packing_order(void) {
    make_tables();
    flags = MEANDERPEG_FLAG_RESET;
    driver_table[0].length = 0;
    payload_table[0].hardware_instance = 1;
    payload_table[1].version = 3;
    payload_table[2].image_start = IMAGES_LENGTH + 1;
    lend(MOST - 2, 3);
    (void)pack("all faults", 0);
    lend(1, 3);
    (void)pack("but 50", 0);
    lend(1, 2);
    (void)pack("but 51", 0);
    driver_table[0].length = 1;
    (void)pack("but 52", 0);
    payload_table[1].version = 2;
    (void)pack("but 53", 0);
    payload_table[0].hardware_instance = 0;
    (void)pack("but 54", 0);
    flags = 0;
    (void)pack("but 55", 0);
}

/* 2^32 - 1 bytes, and one more: 64 drivers that share their bytes. The room is too short for either. */
static void packed_size_limit(void) {
    enum { LONG = 1 << 26 };
    uint8_t *slice = calloc(LONG, 1);
    if (slice == NULL) return;
    make_tables();
    drivers = slice;
    drivers_length = LONG;
    for (size_t i = 0; i < MOST; i++) driver_table[i] = (struct meanderpeg_driver_entry){0, LONG};
    lend(MOST, 0);
    driver_table[MOST - 1].length = UINT32_MAX - 36 - 8 * MOST - (MOST - 1) * (uint64_t)LONG;
    (void)pack("2^32 - 1 bytes", ROOM);
    driver_table[MOST - 1].length += 1;
    (void)pack("2^32 bytes", ROOM);
    free(slice);
}

int main(void) {
    window_samples();
    capsule_samples();
    record_samples();
    printf("-- an update\n");
    update();
    printf("-- other ways\n");
    other_ways();
    printf("-- a store that fails\n");
    failed_store();
    printf("-- old sessions\n");
    old_sessions();
    printf("-- forgotten stores\n");
    forgotten_stores();
    printf("-- directories\n");
    directories();
    printf("-- packing\n");
    packed_and_read();
    packed_items();
    packed_parts();
    packed_values();
    packing_order();
    packed_size_limit();
    return 0;
}
