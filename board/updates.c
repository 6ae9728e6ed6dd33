/* An image that updates endlessly, for kills at any moment (board/kills). Its area and its log lie in memory that is a
 * file of the host and outlives the emulator. Before the stores of a call are done, the log tells which call it is:
 * what the record must be after it the host works out by itself. After a start: repair, start-up, and on from there. */
#include "../include/meanderpeg.h"
#include "machine.h"

#define AREA ((uint8_t *)0x40800000)
#define LOG ((volatile uint32_t *)0x40810000) /* how many entries; then the entries */
enum { LOG_NUMBERS = 0x7e0000 / 4 };

/* What an entry tells, in its lowest byte; board/kills has the same list. The next bytes: image, request or kind. */
enum { BEGIN = 1, COMMIT, END, CANCEL, ACCEPT, SELECT_PREVIOUS, REPAIR, REPAIRED, STARTED, FAULT };

static uint32_t stores[MEANDERPEG_STORE_NUMBERS];
static struct meanderpeg_session session;
static uint32_t random_state;
static unsigned pause; /* turns of a loop between two stores */

static void log_entry(uint32_t what, uint32_t first, uint32_t second) {
    uint32_t count = LOG[0];
    if (count + 2 >= LOG_NUMBERS) power_off();
    LOG[1 + count] = what | first << 8 | second << 16;
    LOG[0] = count + 1;
}

static void fault(uint32_t what, uint32_t refusal) {
    log_entry(FAULT, what, refusal);
    power_off();
}

void trapped(uint64_t syndrome, uint64_t address) {
    (void)address;
    fault(100, (uint32_t)(syndrome >> 26));
}

static uint32_t below(uint32_t limit) {
    random_state ^= random_state << 13;
    random_state ^= random_state >> 17;
    random_state ^= random_state << 5;
    return random_state % limit;
}

static void wait(unsigned turns) {
    for (volatile unsigned i = 0; i < turns; i++) {}
}

/* Each store is one aligned write of 32 bits; the wait is what makes a kill fall between two of them. */
static void do_stores(size_t pairs, unsigned turns) {
    for (size_t k = 0; k < pairs; k++) {
#ifdef WRONG_ORDER /* both copies at once, which board/kills must find: the list has one first, then the other */
        size_t i = pairs % 2 ? k : k % 2 * (pairs / 2) + k / 2;
#else
        size_t i = k;
#endif
        *(volatile uint32_t *)(AREA + stores[2 * i]) = stores[2 * i + 1];
        wait(turns);
    }
    if (!guard_is_whole()) fault(101, 0);
}

static void done(uint32_t what, uint32_t image, uint32_t request, struct meanderpeg_answer answer) {
    if (answer.refusal != MEANDERPEG_OK) fault(what, answer.refusal);
    log_entry(what, image, request);
    do_stores(answer.pairs, pause);
    session = answer.session;
}

#define ON session, AREA, MEANDERPEG_AREA_BYTES
#define STORES stores, MEANDERPEG_STORE_NUMBERS

static uint32_t number(size_t offset, int bytes) {
    uint32_t value = 0;
    while (bytes-- > 0) value = value << 8 | AREA[offset + (size_t)bytes];
    return value;
}
static uint32_t active(void) { return number(8, 4); }
static uint32_t images(void) { return number(34, 2); }
static size_t entry(uint32_t image) { return 40 + (size_t)image * number(36, 2); }
static int accepted_bank(uint32_t bank) { return AREA[24 + bank] == 0xfc; }

/* A start of the machine, mostly from the active bank. */
static void start(void) {
    uint32_t booted = below(8) ? active() : below(AREA[32]);
    struct meanderpeg_answer answer = meanderpeg_start_up(AREA, MEANDERPEG_AREA_BYTES, booted);
    if (answer.refusal != MEANDERPEG_OK) fault(STARTED, answer.refusal);
    log_entry(STARTED, answer.session.kind, booted);
    session = answer.session;
}

static void commit(uint32_t image) {
    uint8_t guid[MEANDERPEG_GUID_BYTES];
    uint32_t request = below(4) == 0;
    memcpy(guid, AREA + entry(image), sizeof guid);
    done(COMMIT, image, request, meanderpeg_commit(ON, guid, request, STORES));
}

static void update(void) {
    done(BEGIN, 0, 0, meanderpeg_begin(ON, STORES));
    for (uint32_t image = 0; image < images(); image++) {
        commit(image);
        if (below(16) == 0) commit(below(image + 1));
    }
    if (below(16) == 0) {
        done(CANCEL, 0, 0, meanderpeg_cancel(ON, STORES));
        return;
    }
    done(END, 0, 0, meanderpeg_end(ON, STORES));
}

static void accept_or_go_back(void) {
    if (accepted_bank(number(12, 4)) && below(4) == 0) {
        done(SELECT_PREVIOUS, 0, 0, meanderpeg_select_previous(ON, STORES));
        return;
    }
    for (uint32_t image = 0; image < images() && session.kind == MEANDERPEG_TRIAL; image++) {
        uint8_t guid[MEANDERPEG_GUID_BYTES];
        memcpy(guid, AREA + entry(image), sizeof guid);
        done(ACCEPT, image, 0, meanderpeg_accept(ON, guid, STORES));
    }
}

static void repair(void) {
    struct meanderpeg_answer answer = meanderpeg_repair(AREA, MEANDERPEG_AREA_BYTES, STORES);
    if (answer.refusal != MEANDERPEG_OK) fault(REPAIR, answer.refusal);
    log_entry(REPAIR, answer.pairs > 0, 0);
    do_stores(answer.pairs, 300000);
    log_entry(REPAIRED, 0, 0);
}

int main(void) {
    random_state = LOG[0] * 2654435761u | 1;
    pause = below(2) ? 100000 : 3000; /* most of the time within stores, or many calls */
    repair();
    start();
    for (;;) {
        if (session.kind == MEANDERPEG_REGULAR) update();
        else if (session.kind == MEANDERPEG_TRIAL) accept_or_go_back();
        else if (session.kind == MEANDERPEG_FALLBACK && accepted_bank(number(12, 4)))
            done(SELECT_PREVIOUS, 0, 0, meanderpeg_select_previous(ON, STORES));
        else start();
    }
}
