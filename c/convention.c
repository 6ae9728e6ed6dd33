/* A caller whose own convention is Microsoft's (c/run compiles this with -mabi=ms): the functions of the header must
 * still be called by the System V one, structs by value and arguments on the stack too. */
#include "../include/meanderpeg.h"

/* Fourteen arguments: a capsule of a driver of 3 bytes and a payload of version 2 with nothing in it. */
static int wrong_packing(uint8_t *bytes) {
    const struct meanderpeg_driver_entry driver = {1, 3};
    const struct meanderpeg_payload_entry payload = {.version = 2, .image_start = 2, .vendor_code_start = 4};
    uint8_t capsule[100] = {0};
    size_t size = 0, length = 0;
    int wrong = meanderpeg_capsule_packed_size(0x10000, bytes, 4, &driver, sizeof driver, bytes, 2, bytes, 4, &payload,
                                               sizeof payload, &size) != MEANDERPEG_OK;
    wrong += meanderpeg_capsule_pack(0x10000, bytes, 4, &driver, sizeof driver, bytes, 2, bytes, 4, &payload,
                                     sizeof payload, capsule, sizeof capsule, &length) != MEANDERPEG_OK;
    wrong += meanderpeg_capsule_pack(0x10000, bytes, 4, &driver, sizeof driver, bytes, 2, bytes, 3, &payload,
                                     sizeof payload, capsule, sizeof capsule, &length) != MEANDERPEG_PACK_PART;
    struct meanderpeg_counts counts = {0};
    wrong += meanderpeg_capsule_check(capsule, length, &counts) != MEANDERPEG_OK;
    return wrong + (size != 95 || length != 95 || counts.drivers != 1 || counts.payloads != 1);
}

/* How many of the calls answered wrongly. Session and area are such that begin is refused by 20, with the session
 * given, and commit by 23; gathering is refused by 3, and a directory is not written by 21. */
__attribute__((sysv_abi)) int wrong_calls(uint8_t *area, uint32_t *stores);

__attribute__((sysv_abi)) int wrong_calls(uint8_t *area, uint32_t *stores) {
    struct meanderpeg_session session = {2, 0xb0b0b0b0, 0x5e5e5e5e};
    struct meanderpeg_answer a = meanderpeg_begin(session, area, 100, stores, MEANDERPEG_STORE_NUMBERS);
    int wrong = a.refusal != MEANDERPEG_AREA_LENGTH || a.session.kind != 2 || a.session.bank != 0xb0b0b0b0 ||
                a.session.set != 0x5e5e5e5e || a.told[0] != 0 || a.told[1] != 0 || a.pairs != 0;
    a = meanderpeg_commit(session, area, MEANDERPEG_AREA_BYTES, area, 7, stores, MEANDERPEG_STORE_NUMBERS - 1);
    wrong += a.refusal != MEANDERPEG_STORE_SLICE || a.session.set != 0x5e5e5e5e || a.pairs != 0;
    a = meanderpeg_commit(session, area, MEANDERPEG_AREA_BYTES, area, 7, stores, MEANDERPEG_STORE_NUMBERS);
    wrong += a.refusal != MEANDERPEG_NO_SOUND_COPY || a.session.bank != 0xb0b0b0b0;
    struct meanderpeg_gathered gathered = {8, 9};
    wrong += meanderpeg_gather(area, 100, 0x1000, 0x1001, &gathered) != MEANDERPEG_DESCRIPTOR_ADDRESS;
    wrong += gathered.address != 8 || gathered.total != 9;
    uint8_t room[1] = {7};
    size_t length = 8;
    wrong += meanderpeg_directory_write(area, MEANDERPEG_AREA_BYTES, 0, stores, 4, room, 1, &length) !=
             MEANDERPEG_NO_SOUND_COPY;
    wrong += room[0] != 7 || length != 8;
    return wrong + wrong_packing(area);
}
