/* Every length of every function one above what is there, and every number or struct that a function sets never
 * written before. One fault to a line, which has `fault =` or UNWRITTEN: c/run asks gcc for a warning of each. */
#include "../include/meanderpeg.h"

static uint8_t bytes[100], guid[MEANDERPEG_GUID_BYTES];
static uint32_t numbers[100];

extern uint32_t fault;
void lengths(void);
void calls(struct meanderpeg_session s);
void directories(void);
void packing(void);

void lengths(void) {
    struct meanderpeg_gathered gathered = {0};
    struct meanderpeg_counts counts = {0};
    struct meanderpeg_part part = {0};
    uint64_t instance = 0;
    uint32_t copies = 0;
    uint8_t index = 0, text[100] = {0};
    fault = meanderpeg_gather(bytes, 101, 0, 0, &gathered);
    fault = meanderpeg_capsule_check(bytes, 101, &counts);
    fault = meanderpeg_capsule_item(bytes, 101, 0, &part);
    fault = meanderpeg_capsule_image(bytes, 101, 0, &part);
    fault = meanderpeg_capsule_vendor_code(bytes, 101, 0, &part);
    fault = meanderpeg_capsule_type_guid(bytes, 101, 0, guid);
    fault = meanderpeg_capsule_type_guid(bytes, 100, 0, guid + 1);
    fault = meanderpeg_capsule_image_index(bytes, 101, 0, &index);
    fault = meanderpeg_capsule_hardware_instance(bytes, 101, 0, &instance);
    fault = meanderpeg_soundness(bytes, 101, &copies);
    fault = meanderpeg_report(bytes, 101, text, 100) > 0;
    fault = meanderpeg_report(bytes, 100, text, 101) > 0;
    fault = meanderpeg_start_up(bytes, 101, 0).refusal;
    fault = meanderpeg_repair(bytes, 101, numbers, 100).refusal;
    fault = meanderpeg_repair(bytes, 100, numbers, 101).refusal;
}

void calls(struct meanderpeg_session s) {
    const uint32_t request = MEANDERPEG_IMAGE_ACCEPTED;
    fault = meanderpeg_begin(s, bytes, 101, numbers, 100).refusal;
    fault = meanderpeg_begin(s, bytes, 100, numbers, sizeof numbers).refusal;
    fault = meanderpeg_commit(s, bytes, 101, guid, request, numbers, 100).refusal;
    fault = meanderpeg_commit(s, bytes, 100, guid + 1, request, numbers, 100).refusal;
    fault = meanderpeg_commit(s, bytes, 100, guid, request, numbers, 101).refusal;
    fault = meanderpeg_end(s, bytes, 101, numbers, 100).refusal;
    fault = meanderpeg_end(s, bytes, 100, numbers, 101).refusal;
    fault = meanderpeg_cancel(s, bytes, 101, numbers, 100).refusal;
    fault = meanderpeg_cancel(s, bytes, 100, numbers, 101).refusal;
    fault = meanderpeg_accept(s, bytes, 101, guid, numbers, 100).refusal;
    fault = meanderpeg_accept(s, bytes, 100, guid + 1, numbers, 100).refusal;
    fault = meanderpeg_accept(s, bytes, 100, guid, numbers, 101).refusal;
    fault = meanderpeg_select_previous(s, bytes, 101, numbers, 100).refusal;
    fault = meanderpeg_select_previous(s, bytes, 100, numbers, 101).refusal;
}

void directories(void) {
    struct meanderpeg_directory shown = {0};
    struct meanderpeg_directory_entry five = {0};
    struct meanderpeg_part part = {0};
    uint8_t room[100] = {0};
    size_t length = 0;
    fault = meanderpeg_directory_write(bytes, 101, 0, numbers, 100, room, 100, &length);
    fault = meanderpeg_directory_write(bytes, 100, 0, numbers, sizeof numbers, room, 100, &length);
    fault = meanderpeg_directory_write(bytes, 100, 0, numbers, 100, room, 101, &length);
    fault = meanderpeg_directory_check(bytes, 101, &shown);
    fault = meanderpeg_directory_type_guid(bytes, 101, 0, &part);
    fault = meanderpeg_directory_numbers(bytes, 101, 0, &five);
}

/* The lengths of tables are bytes, too. */
void packing(void) {
    struct meanderpeg_driver_entry d[2] = {{0, 1}, {0, 1}};
    struct meanderpeg_payload_entry p[2] = {{0}, {0}};
    uint8_t room[100] = {0};
    size_t n = 0;
    fault = meanderpeg_capsule_packed_size(0, bytes, 101, d, sizeof d, bytes, 1, bytes, 1, p, sizeof p, &n);
    fault = meanderpeg_capsule_packed_size(0, bytes, 1, d, sizeof d + 1, bytes, 1, bytes, 1, p, sizeof p, &n);
    fault = meanderpeg_capsule_packed_size(0, bytes, 1, d, sizeof d, bytes, 101, bytes, 1, p, sizeof p, &n);
    fault = meanderpeg_capsule_packed_size(0, bytes, 1, d, sizeof d, bytes, 1, bytes, 101, p, sizeof p, &n);
    fault = meanderpeg_capsule_packed_size(0, bytes, 1, d, sizeof d, bytes, 1, bytes, 1, p, sizeof p + 1, &n);
    fault = meanderpeg_capsule_pack(0, bytes, 101, d, sizeof d, bytes, 1, bytes, 1, p, sizeof p, room, 100, &n);
    fault = meanderpeg_capsule_pack(0, bytes, 1, d, sizeof d + 1, bytes, 1, bytes, 1, p, sizeof p, room, 100, &n);
    fault = meanderpeg_capsule_pack(0, bytes, 1, d, sizeof d, bytes, 101, bytes, 1, p, sizeof p, room, 100, &n);
    fault = meanderpeg_capsule_pack(0, bytes, 1, d, sizeof d, bytes, 1, bytes, 101, p, sizeof p, room, 100, &n);
    fault = meanderpeg_capsule_pack(0, bytes, 1, d, sizeof d, bytes, 1, bytes, 1, p, sizeof p + 1, room, 100, &n);
    fault = meanderpeg_capsule_pack(0, bytes, 1, d, sizeof d, bytes, 1, bytes, 1, p, sizeof p, room, 101, &n);
}

/* A function for each: where one function has several, gcc warns of one of them alone. */
#define UNWRITTEN(name, declared, function, ...)  \
    uint32_t name(void);                          \
    uint32_t name(void) {                         \
        declared;                                 \
        return function(bytes, 100, __VA_ARGS__); \
    }

UNWRITTEN(gathered, struct meanderpeg_gathered x, meanderpeg_gather, 0, 0, &x)
UNWRITTEN(counts, struct meanderpeg_counts x, meanderpeg_capsule_check, &x)
UNWRITTEN(item, struct meanderpeg_part x, meanderpeg_capsule_item, 0, &x)
UNWRITTEN(image, struct meanderpeg_part x, meanderpeg_capsule_image, 0, &x)
UNWRITTEN(vendor_code, struct meanderpeg_part x, meanderpeg_capsule_vendor_code, 0, &x)
UNWRITTEN(type_guid, uint8_t x[MEANDERPEG_GUID_BYTES], meanderpeg_capsule_type_guid, 0, x)
UNWRITTEN(image_index, uint8_t x, meanderpeg_capsule_image_index, 0, &x)
UNWRITTEN(instance, uint64_t x, meanderpeg_capsule_hardware_instance, 0, &x)
UNWRITTEN(soundness, uint32_t x, meanderpeg_soundness, &x)
UNWRITTEN(report, uint8_t x[100], (uint32_t)meanderpeg_report, x, 100)
UNWRITTEN(room, uint8_t x[100], meanderpeg_directory_write, 0, numbers, 100, x, 100, &(size_t){0})
UNWRITTEN(length, size_t x, meanderpeg_directory_write, 0, numbers, 100, guid, 16, &x)
UNWRITTEN(words, uint32_t x[4], meanderpeg_directory_write, 0, x, 4, guid, 16, &(size_t){0})
UNWRITTEN(shown, struct meanderpeg_directory x, meanderpeg_directory_check, &x)
UNWRITTEN(part, struct meanderpeg_part x, meanderpeg_directory_type_guid, 0, &x)
UNWRITTEN(five, struct meanderpeg_directory_entry x, meanderpeg_directory_numbers, 0, &x)

/* The same of packing. */
#define UNWRITTEN_IN(name, declared, function, ...)  \
    uint32_t name(void);                             \
    uint32_t name(void) {                            \
        declared;                                    \
        return function(0, bytes, 100, __VA_ARGS__); \
    }

static size_t n;

UNWRITTEN_IN(drivers, uint64_t x[2], meanderpeg_capsule_packed_size, x, 16, guid, 1, guid, 1, guid, 1, &n)
UNWRITTEN_IN(payloads, uint64_t x[8], meanderpeg_capsule_packed_size, guid, 1, guid, 1, guid, 1, x, 64, &n)
UNWRITTEN_IN(size, size_t x, meanderpeg_capsule_packed_size, guid, 1, guid, 1, guid, 1, guid, 1, &x)
UNWRITTEN_IN(images, uint8_t x[9], meanderpeg_capsule_pack, guid, 1, x, 9, guid, 1, guid, 1, guid + 8, 1, &n)
UNWRITTEN_IN(codes, uint8_t x[9], meanderpeg_capsule_pack, guid, 1, guid, 1, x, 9, guid, 1, guid + 8, 1, &n)
UNWRITTEN_IN(capsule, uint8_t x[9], meanderpeg_capsule_pack, guid, 1, guid, 1, guid, 1, guid, 1, x, 9, &n)
UNWRITTEN_IN(packed, size_t x, meanderpeg_capsule_pack, guid, 1, guid, 1, guid, 1, guid, 1, guid + 8, 1, &x)
