/* How many bytes of stack each function of the library touches: each is called on a stack of its own, painted before
 * and looked at after, with the inputs that lead it farthest: 256 descriptors, 64 items, 4 banks and 32 images, copies
 * equal, different and spoilt. Prints a line a function: name, bytes. c/measure compares them with what it reads from
 * the code. */
#include "../include/meanderpeg.h"

#if __STDC_HOSTED__
#include <stdio.h>
#include <string.h>
#include <ucontext.h>
#else /* on the emulated Arm board: board/run */
#include "../board/machine.h"
#endif
#include "largest.h"

enum { BASE = 0x1000, WINDOW = 16384, ITEMS = 64, CAPSULE = 28 + 8 + 8 * ITEMS + 48 * ITEMS };

static uint8_t window[WINDOW], capsule[CAPSULE], text[MEANDERPEG_REPORT_BYTES];
static uint8_t guid[MEANDERPEG_GUID_BYTES];
static uint32_t words[IMAGES * MEANDERPEG_DIRECTORY_IMAGE_WORDS];
static uint8_t directory[MEANDERPEG_DIRECTORY_BYTES];
static struct meanderpeg_driver_entry driver_table[ITEMS / 2];
static struct meanderpeg_payload_entry payload_table[ITEMS / 2];
static uint8_t packed[CAPSULE];
static struct meanderpeg_session session;
static size_t item, blocks, entry;

static void make_window(void) {
    memset(window, 7, sizeof window);
    for (size_t i = 0; i < blocks; i++) {
        put(window + 16 * i, i % 2 ? 1 : 2, 8);
        put(window + 16 * i + 8, BASE + 6000 + 7 * (blocks - i), 8);
    }
    memset(window + 16 * blocks, 0, 16);
}

/* Every second descriptor a jump to the one behind it. */
static void make_jumps(void) {
    make_window();
    for (size_t i = 1; i < blocks; i += 2) {
        put(window + 16 * i, 0, 8);
        put(window + 16 * i + 8, BASE + 16 * (i + 1), 8);
    }
}

static void make_capsule(void) {
    static const uint8_t type[16] = {0xed, 0xd5, 0xcb, 0x6d, 0x2d, 0xe8, 0x44, 0x4c,
                                     0xbd, 0xa1, 0x71, 0x94, 0x19, 0x9a, 0xd9, 0x2a};
    memset(capsule, 0, sizeof capsule);
    memcpy(capsule, type, sizeof type);
    put(capsule + 16, 28, 4);
    put(capsule + 24, CAPSULE, 4);
    uint8_t *body = capsule + 28;
    put(body, 1, 4);
    put(body + 4, ITEMS / 2, 2);
    put(body + 6, ITEMS / 2, 2);
    for (size_t i = 0; i < ITEMS; i++) {
        size_t at = 8 + 8 * ITEMS + 48 * i;
        put(body + 8 + 8 * i, at, 8);
        put(body + at, 2, 4);
        put(body + at + 24, 5, 4);
        put(body + at + 28, 3, 4);
    }
}

/* Half of the items drivers, the others payloads of both versions; their parts are of the window. */
static void make_tables(void) {
    for (size_t i = 0; i < ITEMS / 2; i++) {
        driver_table[i] = (struct meanderpeg_driver_entry){i, 8};
        payload_table[i] = (struct meanderpeg_payload_entry){.version = (uint32_t)(1 + i % 2)};
        payload_table[i].image_start = i;
        payload_table[i].image_length = 5;
        payload_table[i].vendor_code_length = 3;
    }
}

/* ---- One call each; what it answers shows whether the input led where it should ---- */

static uint32_t refusal;
static uint8_t *before; /* the stack pointer at the call */

#ifdef __aarch64__
#define STACK_POINTER "mov %0, sp"
#else
#define STACK_POINTER "mov %%rsp, %0"
#endif
#define CALLED(name, call)                                      \
    static void name(void) {                                    \
        __asm__ volatile(STACK_POINTER : "=r"(before));         \
        call;                                                   \
    }
#define ANSWERED(name, call) CALLED(name, refusal = (call).refusal)
#define STORES stores, MEANDERPEG_STORE_NUMBERS
#define WORDS words, IMAGES *MEANDERPEG_DIRECTORY_IMAGE_WORDS
#define LENT 0, window, WINDOW, driver_table, sizeof driver_table, window, WINDOW, window, WINDOW, payload_table, \
             sizeof payload_table

static struct meanderpeg_gathered gathered;
static struct meanderpeg_counts counts;
static struct meanderpeg_part part;
static uint8_t image_index;
static uint64_t instance;
static uint32_t copies;
static size_t length;
static struct meanderpeg_directory shown;
static struct meanderpeg_directory_entry numbers;

CALLED(gather, refusal = meanderpeg_gather(window, WINDOW, BASE, BASE, &gathered))
CALLED(capsule_check, refusal = meanderpeg_capsule_check(capsule, CAPSULE, &counts))
CALLED(capsule_item, refusal = meanderpeg_capsule_item(capsule, CAPSULE, item, &part))
CALLED(capsule_image, refusal = meanderpeg_capsule_image(capsule, CAPSULE, item, &part))
CALLED(capsule_vendor_code, refusal = meanderpeg_capsule_vendor_code(capsule, CAPSULE, item, &part))
CALLED(capsule_type_guid, refusal = meanderpeg_capsule_type_guid(capsule, CAPSULE, item, guid))
CALLED(capsule_image_index, refusal = meanderpeg_capsule_image_index(capsule, CAPSULE, item, &image_index))
CALLED(capsule_hardware_instance, refusal = meanderpeg_capsule_hardware_instance(capsule, CAPSULE, item, &instance))
CALLED(capsule_packed_size, refusal = meanderpeg_capsule_packed_size(LENT, &length))
CALLED(capsule_pack, refusal = meanderpeg_capsule_pack(LENT, packed, sizeof packed, &length))
CALLED(soundness, refusal = meanderpeg_soundness(area, sizeof area, &copies))
CALLED(report, refusal = meanderpeg_report(area, sizeof area, text, sizeof text) == 0)
ANSWERED(start_up, meanderpeg_start_up(area, sizeof area, 0))
ANSWERED(repair, meanderpeg_repair(area, sizeof area, STORES))
ANSWERED(begin, meanderpeg_begin(session, area, sizeof area, STORES))
ANSWERED(commit, meanderpeg_commit(session, area, sizeof area, guid, MEANDERPEG_IMAGE_UNACCEPTED, STORES))
ANSWERED(end, meanderpeg_end(session, area, sizeof area, STORES))
ANSWERED(cancel, meanderpeg_cancel(session, area, sizeof area, STORES))
ANSWERED(accept, meanderpeg_accept(session, area, sizeof area, guid, STORES))
ANSWERED(select_previous, meanderpeg_select_previous(session, area, sizeof area, STORES))
CALLED(directory_write, refusal = meanderpeg_directory_write(area, sizeof area, 0, WORDS, directory, sizeof directory,
                                                             &length))
CALLED(directory_check, refusal = meanderpeg_directory_check(directory, length, &shown))
CALLED(directory_type_guid, refusal = meanderpeg_directory_type_guid(directory, length, entry, &part))
CALLED(directory_numbers, refusal = meanderpeg_directory_numbers(directory, length, entry, &numbers))

/* ---- The painted stack ---- */

static uint8_t stack[1 << 18];

#if __STDC_HOSTED__
static void call_on_it(void (*call)(void)) {
    static ucontext_t here, there;
    getcontext(&there);
    there.uc_stack.ss_sp = stack;
    there.uc_stack.ss_size = sizeof stack;
    there.uc_link = &here;
    makecontext(&there, call, 0);
    swapcontext(&here, &there);
}

static void show(const char *name, size_t bytes) { printf("%s %zu\n", name, bytes); }
#else
static uint64_t longest; /* of the calls since the last line, by the board's clock */

static void call_on_it(void (*call)(void)) {
    uint64_t began = ticks();
    call_on(stack + sizeof stack, call);
    uint64_t took = ticks() - began;
    longest = took > longest ? took : longest;
}

/* A third column: with -icount shift=0 the emulator's clock has a tick for 16 instructions. */
static void show(const char *name, size_t bytes) {
    print(name);
    print(" ");
    print_number(bytes);
    print(" ");
    print_number(16 * longest);
    print("\n");
    longest = 0;
}

void trapped(uint64_t syndrome, uint64_t address) {
    show("trapped", syndrome >> 26);
    show("at", address);
    power_off();
}
#endif

static size_t touched_on(int paint, void (*call)(void)) {
    memset(stack, paint, sizeof stack);
    call_on_it(call);
    size_t lowest = 0;
    while (stack[lowest] == paint) lowest++;
    return (size_t)(before - (stack + lowest));
}

static size_t larger(size_t a, size_t b) { return a > b ? a : b; }

/* How many bytes below `before` a call touches; of two paints, since it may write one of them. */
static size_t touched(void (*call)(void)) { return larger(touched_on(0x5a, call), touched_on(0xa5, call)); }

static int faults;

static size_t called(void (*call)(void), uint32_t expected) {
    size_t bytes = touched(call);
    if (refusal != expected) {
        show("expected_refusal", expected);
        show("found_refusal", refusal);
        faults++;
    }
    return bytes;
}

static void gathering(void) {
    size_t most = 0;
    blocks = 255;
    make_window();
    most = larger(most, called(gather, MEANDERPEG_OK));
    make_jumps();
    most = larger(most, called(gather, MEANDERPEG_OK));
    blocks = 256;
    make_window();
    most = larger(most, called(gather, MEANDERPEG_DESCRIPTOR_COUNT));
    make_jumps();
    show("gather", larger(most, called(gather, MEANDERPEG_DESCRIPTOR_COUNT)));
}

static void capsules(void) {
    static const struct {
        const char *name;
        void (*call)(void);
        uint32_t past_the_end;
    } calls[] = {{"capsule_check", capsule_check, 0},
                 {"capsule_item", capsule_item, 16},
                 {"capsule_image", capsule_image, 16},
                 {"capsule_vendor_code", capsule_vendor_code, 16},
                 {"capsule_type_guid", capsule_type_guid, 16},
                 {"capsule_image_index", capsule_image_index, 16},
                 {"capsule_hardware_instance", capsule_hardware_instance, 16}};
    make_capsule();
    for (size_t i = 0; i < sizeof calls / sizeof *calls; i++) {
        size_t most = 0;
        for (item = 0; item <= ITEMS; item++)
            most = larger(most, called(calls[i].call, item == ITEMS ? calls[i].past_the_end : 0));
        show(calls[i].name, most);
    }
}

/* All 64 items; then with a fault in the last. */
static void packing(void) {
    static const struct {
        const char *name;
        void (*call)(void);
    } calls[] = {{"capsule_packed_size", capsule_packed_size}, {"capsule_pack", capsule_pack}};
    make_tables();
    struct meanderpeg_payload_entry *last = payload_table + ITEMS / 2 - 1;
    for (size_t i = 0; i < sizeof calls / sizeof *calls; i++) {
        size_t most = called(calls[i].call, MEANDERPEG_OK);
        last->vendor_code_start = WINDOW;
        most = larger(most, called(calls[i].call, MEANDERPEG_PACK_PART));
        last->vendor_code_start = 0;
        last->version = 3;
        most = larger(most, called(calls[i].call, MEANDERPEG_PACK_VERSION));
        last->version = 2;
        show(calls[i].name, most);
    }
}

/* A call in a session, given the record as it is, then with one copy spoilt, then the other. */
static void changed(const char *name, void (*call)(void), uint32_t without_pair) {
    size_t most = called(call, MEANDERPEG_OK);
    for (int copy = 0; copy < 2; copy++) {
        area[COPY * copy + 60] ^= 1;
        most = larger(most, called(call, without_pair));
        area[COPY * copy + 60] ^= 1;
    }
    area[COPY + 60] ^= 1;
    put(area + COPY, plain_crc(area + COPY + 4, RECORD - 4), 4);
    show(name, larger(most, called(call, without_pair)));
    memcpy(area + COPY, area, RECORD);
}

static void records(void) {
    make_area(0);
    guid[15] = IMAGES;
    changed("soundness", soundness, 0);
    changed("report", report, 0);
    changed("start_up", start_up, 0);
    changed("repair", repair, 0);
    session.kind = MEANDERPEG_TRIAL;
    changed("accept", accept, 22);
    changed("select_previous", select_previous, 22);
    make_area(1);
    session.kind = MEANDERPEG_REGULAR;
    changed("begin", begin, 22);
    struct meanderpeg_answer answer = meanderpeg_begin(session, area, sizeof area, STORES);
    do_stores(answer.pairs);
    session = answer.session;
    changed("commit", commit, 22);
    changed("cancel", cancel, 22);
    session.set = 0xffffffff;
    changed("end", end, 22);
}

/* A directory of 32 entries, each asked for and one past them; then with a fault in the last. */
static void directories(void) {
    static const struct {
        const char *name;
        void (*call)(void);
    } calls[] = {{"directory_check", directory_check},
                 {"directory_type_guid", directory_type_guid},
                 {"directory_numbers", directory_numbers}};
    make_area(0);
    changed("directory_write", directory_write, 0);
    uint8_t *last = directory + length - MEANDERPEG_DIRECTORY_ENTRY_BYTES;
    for (size_t i = 0; i < sizeof calls / sizeof *calls; i++) {
        size_t most = 0;
        for (entry = 0; entry <= IMAGES; entry++) most = larger(most, called(calls[i].call, MEANDERPEG_OK));
        last[15]--; /* the type GUID of the entry before it */
        most = larger(most, called(calls[i].call, MEANDERPEG_DIRECTORY_ENTRIES));
        last[15]++;
        show(calls[i].name, most);
    }
}

int main(void) {
    gathering();
    capsules();
    packing();
    records();
    directories();
    return faults != 0;
}
