/* Meanderpeg: gathers a UEFI capsule that lies scattered in memory, checks it and hands out its parts, and packs one;
 * keeps the Arm A/B record (DEN0118, metadata version 2) that says which bank of firmware images is started; and writes
 * and reads the image directory (DEN0118, version 2) that tells a client what is installed.
 *
 * Link target/staticlib/libmeanderpeg.a, which `c/library` writes. What each function answers, and every byte behind
 * its pointers at return, is proved for all inputs that keep to WHAT THE CALLER SEES TO (crates/c_*); docs/RULES.md
 * has the rules by number. The library looks at form alone: it verifies no signature, writes no image and touches no
 * device. It has no state, allocates nothing, and every call ends. Calls on different memory may run at the same time.
 *
 *
 * AN UPDATE, from one start of the machine to the next
 *
 *   1. After every start: meanderpeg_repair and do its stores (mostly there are none), then meanderpeg_start_up with
 *      the number of the bank that the boot loader started. It gives the session, and an update begins in Regular.
 *   2. meanderpeg_begin, and do its stores. The answer's session.bank is now the update bank, marked invalid. Only
 *      when the last of these stores has landed may a byte of that bank be overwritten (DEN0118, A3.1.1): else a power
 *      cut leaves half-written images in a bank that the record calls good.
 *   3. For each image of the record: write it into the update bank and, only when its last byte has landed for good
 *      (no cache, no queue still holds one), meanderpeg_commit with its type GUID, and do the stores. Of a payload,
 *      meanderpeg_capsule_image and meanderpeg_capsule_type_guid have the two. An image that stays the same is copied
 *      from the active bank and committed too: meanderpeg_end wants all of them.
 *   4. meanderpeg_end, and do its stores. The session is Restart: restart the machine.
 *   5. The boot loader starts the new bank. If an image was committed as unaccepted, start-up gives Trial:
 *      meanderpeg_accept each such image once it has shown that it works, or meanderpeg_select_previous and restart.
 *      If the boot loader started another bank instead, start-up gives Fallback: meanderpeg_select_previous and
 *      restart makes the previous bank the active one, and until then no update can begin. Where that gives 25 (the
 *      previous bank is not accepted), where a third bank runs, or after a failed store of meanderpeg_end, restart to
 *      try the active bank again.
 *
 * The boot loader reads the record as start-up does: copy 0 if it is sound, else copy 1 (The area, below). One that
 * tests less than meanderpeg_soundness must still ask for version 2, not for the CRC alone: a copy that is being
 * written has version 0. It starts no invalid bank.
 *
 *
 * SESSIONS
 *
 * A session is a struct of three numbers in RAM. meanderpeg_start_up gives it after each start of the machine, and it
 * is never stored: an update that a restart finds in Staging begins anew at step 2. Keep one: after an accepted call
 * (refusal 0), once all its stores are done, overwrite it with the answer's; after a refusal it stays as it is. Never
 * keep a copy or put one together by hand: the library cannot see that a session is old. Only Staging is compared with
 * the record (24); with the Regular session from before meanderpeg_end, meanderpeg_begin is accepted, and of two banks
 * the update bank is the one that runs. `booted` is believed too.
 *
 * Best is one function of your own that every answer goes through: it does the stores, then overwrites the session, as
 * `done` in README.md does (a repair's answer has no session: the one at hand stays). Later calls mostly do not notice
 * that stores were forgotten, since each works from the area as it is: after those of a meanderpeg_commit,
 * meanderpeg_end is accepted and leaves unaccepted an image that was committed as accepted.
 *
 *
 * STORES
 *
 * No function writes the area. Repair and the calls list stores in `stores`: for i from 0 to pairs - 1, the 32-bit
 * word stores[2 * i + 1] goes, little-endian, into the four bytes of the area at offset stores[2 * i], a multiple of
 * 4. `pairs` counts after an accepted call alone, and may be 0 there; numbers past the list stay as they were, and
 * after a refusal all do. `stores_length` counts numbers, not bytes: `uint32_t stores[MEANDERPEG_STORE_NUMBERS]` goes
 * with MEANDERPEG_STORE_NUMBERS, not with sizeof stores.
 *   - The area starts at a multiple of 4 of the storage, and no block of the device has bytes of both copies (DEN0118,
 *     A3.2.1).
 *   - Each store is one aligned write of 32 bits that lands whole: a power cut leaves the old word or the new one.
 *     FRAM, MRAM and battery-backed RAM take such writes; flash that erases a block first does not by itself.
 *   - Stores are done in list order, and each has landed for good before the next is started. Byte by byte, or through
 *     a cache that writes back in another order, a power cut can leave a record that is neither old nor new.
 *   - All are done before the next session is used. If one fails, or power is cut, the session is lost: start again at
 *     step 1. Start-up then reads the record whole, as it was before the call or as it is after it.
 * The area that a call is given is the storage itself, if plain loads can read it (of any width, also unaligned and
 * repeated), or a copy of it in RAM: then each store is done in the storage first, then in the copy, and after one that
 * failed the copy is read anew before step 1.
 *
 *
 * REFUSALS
 *
 * Every function but meanderpeg_report gives 0, or the number of a refusal, and with a refusal it has altered nothing
 * behind its pointers. meanderpeg_refusal_text has it in words. After 22 (the copies are not both sound and equal): if
 * every store of every accepted call so far has been done, the session still holds: meanderpeg_repair, do its stores,
 * call again. If one was not, the session may be older than the record (meanderpeg_select_previous would exchange the
 * banks back): start again at step 1. After 21 there is no record left to go on from: the platform has to write one
 * anew, as its maker wrote the first (The area, below).
 *
 *
 * WHAT THE CALLER SEES TO, since no proof reaches it
 *
 *   - No pointer is null, not even one whose length is 0. A pointer and the length behind it are memory that is there
 *     and has been written, also where the call is to write it: `struct meanderpeg_part part = {0};`. A length counts
 *     bytes, for stores and words numbers of 32 bits.
 *   - What is passed for writing (a pointer without const) shares no byte with anything else passed to the same call.
 *     Nobody else, no device either, writes what is passed before the call returns. Numbers and structs are aligned as
 *     C asks.
 *   - A capsule or directory stays as it was checked until its parts have been used: check a copy that nobody else can
 *     write. It and its parts lie at any alignment: read numbers byte by byte or by memcpy, and cast no pointer.
 *   - Each image is authenticated before meanderpeg_commit, at the latest before meanderpeg_end.
 *   - In firmware and kernels: masking stops neither NMI nor machine check, so that where the archive uses the red zone
 *     their handlers need a stack of their own (IST); where it uses xmm0 and xmm1, a kernel saves them around a call.
 *
 *
 * THE MACHINE (`c/measure` prints all of this from the archive)
 *
 * This is about the archive for x86-64 Linux. For firmware there are two others, which use neither vector registers nor
 * a red zone: `c/library --target aarch64` (little-endian, 64-bit pointers, aligned accesses alone, the compiler's own
 * calling convention) and `--target x86_64-firmware`. They ask for memset, the first for memcpy too, and want at most
 * 26,832 bytes of stack for meanderpeg_gather and 1,744 for any other call; docs/TARGETS.md has the numbers of each.
 *
 *   - x86-64 code in ELF objects, position-independent, for 64-bit pointers and the System V calling convention. Where
 *     a compiler's own convention is another (UEFI and Windows targets), the declarations below ask for this one.
 *   - It asks for memset, by the same convention, and for nothing else; it has no data and no bss.
 *   - It uses the red zone: up to 56 bytes below the stack pointer hold values during a call. Where interrupts come
 *     in on the same stack (firmware, kernels: what is compiled with -mno-red-zone), mask them during a call (in UEFI
 *     RaiseTPL to TPL_HIGH_LEVEL), give their handlers a stack of their own (IST), or link the archive for firmware.
 *   - It uses xmm0 and xmm1, so SSE must be enabled, and an interrupt handler that uses them must save them; the
 *     archive for firmware does not. No x87, no AVX.
 *   - Bytes of stack that a call uses at most; what memset uses comes on top:
 *
 *       meanderpeg_gather                     26,944    meanderpeg_report                      1,216
 *       meanderpeg_capsule_check                 128    meanderpeg_start_up                    1,216
 *       meanderpeg_capsule_item                  128    meanderpeg_repair                      1,216
 *       meanderpeg_capsule_image                 128    meanderpeg_begin                       2,368
 *       meanderpeg_capsule_vendor_code           128    meanderpeg_commit                      1,408
 *       meanderpeg_capsule_type_guid             192    meanderpeg_end                         1,408
 *       meanderpeg_capsule_image_index           192    meanderpeg_cancel                      1,280
 *       meanderpeg_capsule_hardware_instance     192    meanderpeg_accept                      1,408
 *       meanderpeg_soundness                   1,216    meanderpeg_select_previous             1,408
 *       meanderpeg_directory_write             1,216    meanderpeg_directory_type_guid            64
 *       meanderpeg_directory_check                64    meanderpeg_directory_numbers              64
 *       meanderpeg_capsule_pack                  512    meanderpeg_capsule_packed_size           256
 */
#ifndef MEANDERPEG_H
#define MEANDERPEG_H

#include <stddef.h>
#include <stdint.h>

#define MEANDERPEG_VERSION_MAJOR 0
#define MEANDERPEG_VERSION_MINOR 4
#define MEANDERPEG_VERSION_PATCH 0
#define MEANDERPEG_VERSION "0.4.0"

/* ---- Whether the archive fits, and what this compiler knows ---- */

#if !defined(__x86_64__) && !defined(_M_X64) && !defined(__aarch64__)
#error "meanderpeg: libmeanderpeg.a has code for x86-64 and AArch64 alone"
#endif
#if defined(__ILP32__) || defined(_ILP32)
#error "meanderpeg: libmeanderpeg.a wants 64-bit pointers; here they have 32 bits (x32, ilp32)"
#endif
#if defined(__AARCH64EB__)
#error "meanderpeg: libmeanderpeg.a has code for little-endian AArch64 alone"
#endif

#if defined(__aarch64__) /* one convention, the compiler's own */
#define MEANDERPEG_SYSV
#define MEANDERPEG_CHECKED __attribute__((warn_unused_result, nonnull))
#elif defined(__GNUC__) || defined(__clang__)
#define MEANDERPEG_SYSV __attribute__((sysv_abi))
#define MEANDERPEG_CHECKED __attribute__((warn_unused_result, nonnull))
#elif defined(_WIN32) || defined(_MSC_VER)
#error "meanderpeg: libmeanderpeg.a has System V calls, and this compiler has no sysv_abi; gcc and clang have"
#else
#define MEANDERPEG_SYSV
#define MEANDERPEG_CHECKED
#endif
#define MEANDERPEG_FUNCTION MEANDERPEG_SYSV MEANDERPEG_CHECKED

/* Of parameters, counted from 1: READS(n) and WRITES(n), n points to as many as n + 1 says; SETS(n), to one. By these
 * gcc warns of a length above what is there, and of what was never written. */
#ifdef __has_attribute
#if __has_attribute(access)
#define MEANDERPEG_READS(n) __attribute__((access(read_only, n, n + 1)))
#define MEANDERPEG_WRITES(n) __attribute__((access(read_write, n, n + 1)))
#define MEANDERPEG_SETS(n) __attribute__((access(read_write, n)))
#endif
#endif
#ifndef MEANDERPEG_READS
#define MEANDERPEG_READS(n)
#define MEANDERPEG_WRITES(n)
#define MEANDERPEG_SETS(n)
#endif

#ifdef __cplusplus
extern "C" {
#endif

/* ---- Numbers ---- */

enum meanderpeg_refusal {
    MEANDERPEG_OK = 0,
    /* gathering: 1 first; of each descriptor 2, 3, 4, 5 in this order, the first fault in the list; then 6, then 7 */
    MEANDERPEG_WINDOW_END = 1,         /* the window's end, base + length, lies above 2^64 */
    MEANDERPEG_DESCRIPTOR_COUNT = 2,   /* a 257th descriptor; a list that runs in a circle ends here (or with 5) */
    MEANDERPEG_DESCRIPTOR_ADDRESS = 3, /* a descriptor's address is no multiple of 8, or it leaves the window */
    MEANDERPEG_BLOCK_OUTSIDE = 4,      /* a block is not wholly in the window */
    MEANDERPEG_TOTAL_LENGTH = 5,       /* the blocks have more than 16,777,216 bytes in all */
    MEANDERPEG_TOTAL_ZERO = 6,         /* there is no block */
    MEANDERPEG_NO_PLACE = 7,           /* nowhere in the window are so many bytes in a row free */
    /* capsules: the lowest that applies */
    MEANDERPEG_CAPSULE_SHORT = 10,   /* below 28 bytes */
    MEANDERPEG_CAPSULE_SIZES = 11,   /* HeaderSize below 28 or above CapsuleImageSize, or that is not the length */
    MEANDERPEG_CAPSULE_FLAGS = 12,   /* InitiateReset (0x40000) without PersistAcrossReset (0x10000) */
    MEANDERPEG_CAPSULE_GUID = 13,    /* not the firmware management capsule, 6dcbd5ed-e82d-4c44-bda1-7194199ad92a */
    MEANDERPEG_CAPSULE_BODY = 14,    /* body below 8 bytes, its version not 1, above 64 items, or offsets at fault */
    MEANDERPEG_CAPSULE_PAYLOAD = 15, /* a payload's version is not 1 or 2, or its parts do not fit in it */
    MEANDERPEG_NO_ITEM = 16,         /* the capsule is faultless and has no item of that number */
    /* areas: 20, 23, 21, 22, then 24 to 28, the first that applies */
    MEANDERPEG_AREA_LENGTH = 20,         /* not 16,384 bytes */
    MEANDERPEG_NO_SOUND_COPY = 21,       /* neither copy of the record is sound */
    MEANDERPEG_NOT_SOUND_AND_EQUAL = 22, /* the two copies are not both sound and equal: see REFUSALS */
    MEANDERPEG_STORE_SLICE = 23,         /* fewer than 4,200 numbers for stores */
    MEANDERPEG_STAGING_FAULT = 24,       /* a Staging session that does not fit the record: its bank is not the update
                                            bank or not invalid, or its set has an image that is not there */
    MEANDERPEG_SESSION_STATE = 25,       /* not a session for this call; or the previous bank is not accepted */
    MEANDERPEG_NO_IMAGE = 26,            /* the record has no image of that type GUID */
    MEANDERPEG_IMAGES_MISSING = 27,      /* images not yet committed; told[0] has how many */
    MEANDERPEG_BOOTED_BANK = 28,         /* the record has no bank of that number */
    /* directories: of the writer 20, 21, 28, then 40, 41, 42; of the reader 43 to 46: the first that applies */
    MEANDERPEG_DIRECTORY_WORDS = 40,       /* fewer than four words for each image of the record */
    MEANDERPEG_DIRECTORY_PERMISSIONS = 41, /* permissions of one of the record's images have one of bits 31 to 3 */
    MEANDERPEG_DIRECTORY_ROOM = 42,        /* fewer bytes of room than 24 + 40 * images */
    MEANDERPEG_DIRECTORY_SHORT = 43,       /* below 24 bytes */
    MEANDERPEG_DIRECTORY_HEADER = 44,      /* version not 2, array offset not 24, entry size not 40, images not 1 to 32,
                                              correct_boot above 1, or the reserved field not 0 */
    MEANDERPEG_DIRECTORY_LENGTH = 45,      /* not 24 + 40 * images bytes: also where more are given than were written */
    MEANDERPEG_DIRECTORY_ENTRIES = 46,     /* an entry's permissions have one of bits 31 to 3, its accepted flag is
                                              above 1 or its reserved field not 0; or two type GUIDs are equal */
    /* packing: the lowest that applies to any of the items */
    MEANDERPEG_PACK_ITEMS = 50,        /* more than 64 entries in both tables together */
    MEANDERPEG_PACK_PART = 51,         /* a part's start + length, as whole numbers, lies behind its slice's end */
    MEANDERPEG_PACK_EMPTY_DRIVER = 52, /* a driver of length 0 */
    MEANDERPEG_PACK_VERSION = 53,      /* a payload's version is neither 1 nor 2 */
    MEANDERPEG_PACK_INSTANCE = 54,     /* version 1, which has no field for it, and a hardware instance other than 0 */
    MEANDERPEG_PACK_FLAGS = 55,        /* flags that a reader refuses by 12 */
    MEANDERPEG_PACK_SIZE = 56,         /* the capsule would have more than 4,294,967,295 bytes */
    MEANDERPEG_PACK_ROOM = 57          /* fewer bytes of room than the capsule has */
};

/* A zeroed struct is no session: every call refuses it, and a kind above 5, by 25, where 20 to 23 do not apply. */
enum meanderpeg_session_kind {
    MEANDERPEG_NO_SESSION = 0,
    MEANDERPEG_REGULAR = 1,  /* the active bank runs and is accepted: an update may begin */
    MEANDERPEG_STAGING = 2,  /* an update is being written into the update bank */
    MEANDERPEG_TRIAL = 3,    /* the active bank runs and has images that are not yet accepted */
    MEANDERPEG_FALLBACK = 4, /* another bank than the active one runs */
    MEANDERPEG_RESTART = 5   /* the active bank was changed: no call is accepted until the machine has started anew */
};

/* What meanderpeg_commit marks an image as; any other request does what 1 does. */
enum meanderpeg_request {
    MEANDERPEG_IMAGE_ACCEPTED = 0,  /* good from the start */
    MEANDERPEG_IMAGE_UNACCEPTED = 1 /* on trial, after a restart into its bank, until meanderpeg_accept */
};

/* What a client may do with an image: the bits of an image's permissions in its directory, added up. The library only
 * passes them on: no call looks at them, and holding a client to them is the caller's. */
enum meanderpeg_permission {
    MEANDERPEG_PERMISSION_WRITE = 1,
    MEANDERPEG_PERMISSION_READ = 2,
    MEANDERPEG_PERMISSION_ACTIVATE_FIRST = 4 /* it must be activated before it can be accepted; without this bit it can
                                                be accepted at any point of the trial */
};

/* The flags of a capsule that have names (UEFI 2.10, 8.5.3), to be added up. MEANDERPEG_FLAG_RESET needs
 * MEANDERPEG_FLAG_PERSIST. Every other bit is free, and packed and taken as it is. */
enum meanderpeg_capsule_flag {
    MEANDERPEG_FLAG_PERSIST = 0x10000,  /* PersistAcrossReset: kept in memory over a restart */
    MEANDERPEG_FLAG_POPULATE = 0x20000, /* PopulateSystemTable: shown in the system table after it */
    MEANDERPEG_FLAG_RESET = 0x40000     /* InitiateReset: the restart comes at once */
};

enum {
    MEANDERPEG_AREA_BYTES = 16384,
    MEANDERPEG_STORE_NUMBERS = 4200, /* as many numbers as `stores` must hold: 2,100 pairs, 16,800 bytes */
    MEANDERPEG_REPORT_BYTES = 4096,  /* as many bytes as `text` must hold */
    MEANDERPEG_GUID_BYTES = 16,      /* as stored: the first three fields little-endian; compared byte by byte */
    MEANDERPEG_DIRECTORY_HEADER_BYTES = 24,
    MEANDERPEG_DIRECTORY_ENTRY_BYTES = 40,
    MEANDERPEG_DIRECTORY_BYTES = 1304,   /* the longest directory, 24 + 40 * 32: room for every one */
    MEANDERPEG_DIRECTORY_IMAGE_WORDS = 4, /* as many words as meanderpeg_directory_write wants for each image
                                             (MEANDERPEG_DIRECTORY_WORDS is refusal 40) */
    MEANDERPEG_CAPSULE_ITEMS = 64,        /* as many drivers and payloads as a capsule has at most */
    MEANDERPEG_DRIVER_ENTRY_BYTES = 16,   /* sizeof(struct meanderpeg_driver_entry) */
    MEANDERPEG_PAYLOAD_ENTRY_BYTES = 64   /* sizeof(struct meanderpeg_payload_entry) */
};

/* ---- Structs ---- */

struct meanderpeg_gathered {
    uint64_t address; /* the gathered bytes stand at window + (address - base), at any alignment */
    uint64_t total;   /* how many there are: the capsule's length */
};

struct meanderpeg_counts {
    size_t drivers;
    size_t payloads;
};

/* a part of a capsule or of a directory: the capsule's or directory's pointer + start has `length` bytes of it, at any
 * alignment */
struct meanderpeg_part {
    size_t start;
    size_t length;
};

/* bank and set are read in Staging alone, and after a refusal come back as they were given */
struct meanderpeg_session {
    uint32_t kind; /* enum meanderpeg_session_kind */
    uint32_t bank; /* in Staging the update bank, else 0 */
    uint32_t set;  /* in Staging the images committed so far, bit i for the record's image i, else 0 */
};

struct meanderpeg_answer {
    uint32_t refusal;                  /* enum meanderpeg_refusal */
    uint32_t told[2];                  /* told[0] with 27: how many images are missing; every other is 0 */
    struct meanderpeg_session session; /* the next one; with a refusal the one given. Repair, and a refused start-up,
                                          have none to give: all 0 */
    size_t pairs;                      /* how many stores are listed; 0 with a refusal */
};

struct meanderpeg_directory {
    uint32_t images;       /* how many entries there are: 1 to 32 */
    uint32_t correct_boot; /* 1 if the machine runs from the active bank, 0 if from another one */
};

/* an entry of a directory, but for its type GUID */
struct meanderpeg_directory_entry {
    uint32_t permissions;             /* bits of enum meanderpeg_permission; bits 31 to 3 are zero */
    uint32_t maximum_size;            /* of an image that can be installed */
    uint32_t lowest_accepted_version; /* an older one may not run here */
    uint32_t version;                 /* in the bank that was started, as is `accepted` */
    uint32_t accepted;                /* 0 or 1 */
};

/* What is to be packed, an entry each. A start is an offset in the slice that holds the drivers, the images or the
 * vendor codes, and start + length lies at most at that slice's end. */
struct meanderpeg_driver_entry {
    uint64_t start;
    uint64_t length; /* not 0 */
};

struct meanderpeg_payload_entry {
    uint32_t version;           /* of the payload's header: 1, or 2, which has the hardware instance */
    uint8_t type_guid[16];      /* UpdateImageTypeId, as stored */
    uint8_t image_index;        /* UpdateImageIndex */
    uint8_t unused[3];          /* not looked at; there so that the struct has no gap */
    uint64_t hardware_instance; /* UpdateHardwareInstance; 0 with version 1 */
    uint64_t image_start;
    uint64_t image_length; /* may be 0 */
    uint64_t vendor_code_start;
    uint64_t vendor_code_length; /* may be 0 */
};

/* ---- Gathering ----
 * The window is memory that holds the list of descriptors, the blocks, and room for all blocks together. Every byte of
 * it that is in no block and no descriptor counts as free, and may be overwritten. `base` is the address of its first
 * byte in the terms of the descriptors (physical, where they hold physical addresses), and `first` that of the first
 * descriptor.
 *
 * A descriptor is EFI_CAPSULE_BLOCK_DESCRIPTOR, 16 bytes at a multiple of 8: a length, then an address, little-endian,
 * 64 bits each. Length above 0: a block of so many bytes. Length 0: the list goes on at the address, or ends where that
 * is 0 too. At most 256 descriptors are read, jumps and the end among them, and the blocks have at most 16,777,216
 * bytes in all. Blocks may overlap each other and the descriptors.
 *
 * The blocks are copied together, in list order, to the lowest place in the window that shares no byte with a block or
 * a descriptor read; every other byte stays. Refusals 1 to 7. */
MEANDERPEG_FUNCTION uint32_t meanderpeg_gather(uint8_t *window, size_t window_length, uint64_t base, uint64_t first,
                                               struct meanderpeg_gathered *gathered)
    MEANDERPEG_WRITES(1) MEANDERPEG_SETS(5);

/* ---- The capsule ----
 * Its items are numbered from 0, drivers first, then payloads; there are at most 64. Each function checks the whole
 * capsule before it answers, so none needs another called first; the cost does not grow with the images' size. What is
 * behind the last pointer is set where the answer is 0; with a refusal it stays as it was: initialise it to {0}, of a
 * part an empty one. */

/* How many items there are. Refusals 10 to 15. */
MEANDERPEG_FUNCTION uint32_t meanderpeg_capsule_check(const uint8_t *capsule, size_t capsule_length,
                                                      struct meanderpeg_counts *counts)
    MEANDERPEG_READS(1) MEANDERPEG_SETS(3);

/* Where in the capsule the whole item is, its image, and its vendor code. A driver's image is the whole item, and its
 * vendor code the empty part at the item's end. Refusals 10 to 16. */
MEANDERPEG_FUNCTION uint32_t meanderpeg_capsule_item(const uint8_t *capsule, size_t capsule_length, size_t item,
                                                     struct meanderpeg_part *part)
    MEANDERPEG_READS(1) MEANDERPEG_SETS(4);
MEANDERPEG_FUNCTION uint32_t meanderpeg_capsule_image(const uint8_t *capsule, size_t capsule_length, size_t item,
                                                      struct meanderpeg_part *part)
    MEANDERPEG_READS(1) MEANDERPEG_SETS(4);
MEANDERPEG_FUNCTION uint32_t meanderpeg_capsule_vendor_code(const uint8_t *capsule, size_t capsule_length, size_t item,
                                                            struct meanderpeg_part *part)
    MEANDERPEG_READS(1) MEANDERPEG_SETS(4);

/* A payload's UpdateImageTypeId, UpdateImageIndex and UpdateHardwareInstance (0 in a payload of version 1); all zeros
 * for a driver. Refusals 10 to 16. */
MEANDERPEG_FUNCTION uint32_t meanderpeg_capsule_type_guid(const uint8_t *capsule, size_t capsule_length, size_t item,
                                                          uint8_t guid[MEANDERPEG_GUID_BYTES])
    MEANDERPEG_READS(1) MEANDERPEG_SETS(4);
MEANDERPEG_FUNCTION uint32_t meanderpeg_capsule_image_index(const uint8_t *capsule, size_t capsule_length, size_t item,
                                                            uint8_t *index)
    MEANDERPEG_READS(1) MEANDERPEG_SETS(4);
MEANDERPEG_FUNCTION uint32_t meanderpeg_capsule_hardware_instance(const uint8_t *capsule, size_t capsule_length,
                                                                  size_t item, uint64_t *instance)
    MEANDERPEG_READS(1) MEANDERPEG_SETS(4);

/* ---- Packing a capsule ----
 * The other half, for whoever makes capsules: from drivers, images and vendor codes in memory, a capsule that the
 * functions above take, and of which they show every part and number as it was given. HeaderSize is 28, the first item
 * stands right behind the list of offsets, every other right behind the one before, drivers first, each kind in its
 * table's order; there are no spare bytes, and reserved ones are 0. A capsule of this form, packed again from what is
 * shown of it (with its flags, and the 32-bit version at the start of each payload's item), gives the same bytes.
 *
 * `drivers`, `images` and `vendor_codes` hold the parts, and any other bytes between them; one piece of memory may be
 * all three. The tables say which bytes are packed: `driver_table` is an array of struct meanderpeg_driver_entry,
 * `payload_table` one of struct meanderpeg_payload_entry. They are read byte by byte, so they may lie at any alignment,
 * and their lengths are bytes:
 *
 *     struct meanderpeg_driver_entry table[2] = {{0, 100}, {100, 20}};
 *     .. table, sizeof table ..
 *
 * A table has as many entries as fit into its bytes, and a rest that is shorter than an entry is not looked at. Parts
 * may overlap or be the same bytes. An empty image or vendor code may start at its slice's end; one that starts behind
 * it is refused. Where there are no drivers, images, codes or entries, the length is 0 and the pointer any that is not
 * null.
 *
 * The room that is wanted is the size that meanderpeg_capsule_packed_size sets: 36 bytes, 8 more for each item, the
 * drivers, and for each payload 32 bytes (version 1) or 40, its image and its vendor code. */

/* Sets `size` to how many bytes the capsule would have. The cost does not grow with the parts' lengths. Refusals 50 to
 * 56, the lowest that applies, whichever item it is: 51 for a payload comes before 52 for a driver. */
MEANDERPEG_FUNCTION uint32_t meanderpeg_capsule_packed_size(uint32_t flags, const uint8_t *drivers,
                                                            size_t drivers_length, const void *driver_table,
                                                            size_t driver_table_bytes, const uint8_t *images,
                                                            size_t images_length, const uint8_t *vendor_codes,
                                                            size_t vendor_codes_length, const void *payload_table,
                                                            size_t payload_table_bytes, size_t *size)
    MEANDERPEG_READS(2) MEANDERPEG_READS(4) MEANDERPEG_READS(6) MEANDERPEG_READS(8) MEANDERPEG_READS(10)
    MEANDERPEG_SETS(12);

/* Packs the capsule at the front of `capsule`, which has `room` bytes and shares none with a slice or a table, and sets
 * `length` to how many were written. Every byte past them stays; with a refusal every byte does. The capsule is these
 * bytes alone: with the whole room of a longer buffer the reader gives 11. Refusals 50 to 57, the lowest that
 * applies. */
MEANDERPEG_FUNCTION uint32_t meanderpeg_capsule_pack(uint32_t flags, const uint8_t *drivers, size_t drivers_length,
                                                     const void *driver_table, size_t driver_table_bytes,
                                                     const uint8_t *images, size_t images_length,
                                                     const uint8_t *vendor_codes, size_t vendor_codes_length,
                                                     const void *payload_table, size_t payload_table_bytes,
                                                     uint8_t *capsule, size_t room, size_t *length)
    MEANDERPEG_READS(2) MEANDERPEG_READS(4) MEANDERPEG_READS(6) MEANDERPEG_READS(8) MEANDERPEG_READS(10)
    MEANDERPEG_WRITES(12) MEANDERPEG_SETS(14);

/* ---- The area ----
 * 16,384 bytes of storage with two copies of one record: copy 0 at offset 0, copy 1 at 8,192. A record is the metadata
 * of DEN0118, version 2, with 2 to 4 banks and 1 to 32 images: 40 + images * (32 + 24 * banks) bytes, at most 4,136.
 * The bytes behind it are free, and no store touches them. A copy is sound if its CRC agrees and every field is as the
 * rules R ask. Read is copy 0 if it is sound (bit 0 of meanderpeg_soundness), else copy 1 (bit 1). From the start of
 * that copy the active bank is at 8, the previous at 12 (32 bits each, little-endian), the banks' states at 24 (a byte
 * each), the bank count at 32 (a byte), the image count at 34 (16 bits), and the type GUID of image i at
 * 40 + i * (32 + 24 * banks).
 *
 * No function makes the first record: the platform's maker writes it, into both copies, by docs/RULES.md. R2 to R4 have
 * its layout and its CRC, R6 to R19 what each field may hold. A bank that has no good images yet is invalid (255) in
 * it. meanderpeg_soundness must then give 7. `meanderpeg record make`, a command of rust/, writes such an area into a
 * file: every bank accepted, 0 active, 1 previous. */

/* Sets `copies`: bit 0 if copy 0 is sound, bit 1 if copy 1 is, bit 2 if both are and are equal. So 0, 1, 2, 3 or 7;
 * 7 is the one that needs no repair. Refusal 20. */
MEANDERPEG_FUNCTION uint32_t meanderpeg_soundness(const uint8_t *area, size_t area_length, uint32_t *copies)
    MEANDERPEG_READS(1) MEANDERPEG_SETS(3);

/* Writes the record read to the front of `text`, as lines of words and numbers with tabs between, and gives how many
 * bytes they have; no zero byte ends them: `record` copy size, `active` bank, `previous` bank, `bank` number state (252
 * accepted, 254 valid, 255 invalid), `image` number bank accepted. Of a refused area (20, 21) the line is `refused`
 * number. Fewer than 4,096 bytes of text stay as they are, and the answer is 0. */
MEANDERPEG_FUNCTION size_t meanderpeg_report(const uint8_t *area, size_t area_length, uint8_t *text,
                                             size_t text_length)
    MEANDERPEG_READS(1) MEANDERPEG_WRITES(3);

/* The session to go on with after a start from bank `booted`: Fallback if that is not the active bank, else Regular if
 * the active bank is accepted, else Trial. One sound copy is enough. Lists no store. Refusals 20, 21, 28. */
MEANDERPEG_FUNCTION struct meanderpeg_answer meanderpeg_start_up(const uint8_t *area, size_t area_length,
                                                                 uint32_t booted)
    MEANDERPEG_READS(1);

/* Lists the stores that put the record read into the other copy; none where both are sound and equal. Needs no session
 * and answers none. Refusals 20, 23, 21. */
MEANDERPEG_FUNCTION struct meanderpeg_answer meanderpeg_repair(const uint8_t *area, size_t area_length,
                                                               uint32_t *stores, size_t stores_length)
    MEANDERPEG_READS(1) MEANDERPEG_WRITES(3);

/* ---- The calls ----
 * Each is given the session and lists its stores. Refusals of all: 20, 23, 21, 22, 24, 25. */

/* In Regular, or in Staging to start over. The bank after the active one, or bank 0 after the last, becomes the update
 * bank: invalid, its images unaccepted. With two banks that is the other one: from here to meanderpeg_end, and after a
 * cancel, there is no second bank to fall back to. Next: Staging, no image committed. */
MEANDERPEG_FUNCTION struct meanderpeg_answer meanderpeg_begin(struct meanderpeg_session session, const uint8_t *area,
                                                              size_t area_length, uint32_t *stores,
                                                              size_t stores_length)
    MEANDERPEG_READS(2) MEANDERPEG_WRITES(4);

/* In Staging, for the image of this type GUID, once all of it is in the update bank for good. `request` is of enum
 * meanderpeg_request. 0: the image is accepted at once; any other: unaccepted, so that the new bank is on trial first.
 * Of two commits of one image the later holds. Next: Staging. Also 26. */
MEANDERPEG_FUNCTION struct meanderpeg_answer meanderpeg_commit(struct meanderpeg_session session, const uint8_t *area,
                                                               size_t area_length,
                                                               const uint8_t guid[MEANDERPEG_GUID_BYTES],
                                                               uint32_t request, uint32_t *stores,
                                                               size_t stores_length)
    MEANDERPEG_READS(2) MEANDERPEG_WRITES(6);

/* In Staging, when every image of the record has been committed, else 27. The update bank becomes the active one,
 * accepted if all its images are, and the active one the previous. Next: Restart. */
MEANDERPEG_FUNCTION struct meanderpeg_answer meanderpeg_end(struct meanderpeg_session session, const uint8_t *area,
                                                            size_t area_length, uint32_t *stores,
                                                            size_t stores_length)
    MEANDERPEG_READS(2) MEANDERPEG_WRITES(4);

/* In Staging: gives the update up. Lists no store; the update bank stays invalid. Next: Regular. */
MEANDERPEG_FUNCTION struct meanderpeg_answer meanderpeg_cancel(struct meanderpeg_session session, const uint8_t *area,
                                                               size_t area_length, uint32_t *stores,
                                                               size_t stores_length)
    MEANDERPEG_READS(2) MEANDERPEG_WRITES(4);

/* In Trial: the image of this type GUID becomes accepted in the active bank; with the last one the bank does. Next:
 * Regular if all are accepted, else Trial. Also 26. */
MEANDERPEG_FUNCTION struct meanderpeg_answer meanderpeg_accept(struct meanderpeg_session session, const uint8_t *area,
                                                               size_t area_length,
                                                               const uint8_t guid[MEANDERPEG_GUID_BYTES],
                                                               uint32_t *stores, size_t stores_length)
    MEANDERPEG_READS(2) MEANDERPEG_WRITES(5);

/* In Trial or Fallback, where the previous bank is accepted, else 25: active and previous bank change places. Next:
 * Restart. */
MEANDERPEG_FUNCTION struct meanderpeg_answer meanderpeg_select_previous(struct meanderpeg_session session,
                                                                        const uint8_t *area, size_t area_length,
                                                                        uint32_t *stores, size_t stores_length)
    MEANDERPEG_READS(2) MEANDERPEG_WRITES(4);

/* ---- The image directory ----
 * What is installed, for a client that is to update this machine: a header of 24 bytes with the image count and
 * correct_boot, then an entry of 40 bytes for each image of the record, in the record's order. It is no part of the
 * area: whoever is asked for it writes it into memory, by the record as it is then, and hands the bytes on. */

/* Writes the directory to the front of `directory`, which has `room` bytes, and sets `length` to how many were written:
 * 24 + 40 * images. Every byte past them stays. With MEANDERPEG_DIRECTORY_BYTES of room there is always enough.
 * `booted` is as for meanderpeg_start_up, and one sound copy of the record is enough here too.
 *
 * `words` is what the record does not tell: four numbers for each of its images, in its order; words_length counts
 * numbers, so 4 * images, not sizeof words. In the copy that is read the image count is the 16-bit number at 34, and
 * image i has its type GUID at 40 + i * (32 + 24 * banks), banks being the byte at 32.
 *   words[4 * i]      permissions of image i, of enum meanderpeg_permission: bit 0 write, bit 1 read, bit 2 the image
 *                     must be activated before it can be accepted, bits 31 to 3 zero
 *   words[4 * i + 1]  the maximum size of an image that can be installed
 *   words[4 * i + 2]  the lowest version that is accepted
 *   words[4 * i + 3]  the version of the image in bank `booted`
 * Words past those of the last image are not looked at. From the record come the type GUIDs, and the accepted flags as
 * they are in bank `booted`. correct_boot is 0 exactly where meanderpeg_start_up gives Fallback; in Trial it is 1. It
 * goes by the record as it is now: between the stores of meanderpeg_end or meanderpeg_select_previous and the restart
 * the bank that runs need not be the one that was active when it was started.
 *
 * Refusals 20, 21 and 28, as start-up gives them, then 40, 41, 42. */
MEANDERPEG_FUNCTION uint32_t meanderpeg_directory_write(const uint8_t *area, size_t area_length, uint32_t booted,
                                                        const uint32_t *words, size_t words_length,
                                                        uint8_t *directory, size_t room, size_t *length)
    MEANDERPEG_READS(1) MEANDERPEG_READS(4) MEANDERPEG_WRITES(6) MEANDERPEG_SETS(8);

/* The reader. `length` is how many bytes were written, exactly: with the whole room of a longer buffer the answer is
 * 45. Each function checks the whole directory before it answers, so none needs another called first. What is behind
 * the last pointer is set where the answer is 0; with a refusal it stays as it was: initialise it to {0}. Nobody else
 * writes the directory until its parts have been used. Refusals of all: 43 to 46. */

/* How many images there are, and correct_boot. */
MEANDERPEG_FUNCTION uint32_t meanderpeg_directory_check(const uint8_t *directory, size_t length,
                                                        struct meanderpeg_directory *shown)
    MEANDERPEG_READS(1) MEANDERPEG_SETS(3);

/* Of entry k, counted from 0: where its type GUID is (directory + part->start has its 16 bytes), and its five numbers.
 * A k at or past the image count is no refusal: the answer is 0, with the empty part at start 0, or with zeros. So
 * compare k with the count of meanderpeg_directory_check first. */
MEANDERPEG_FUNCTION uint32_t meanderpeg_directory_type_guid(const uint8_t *directory, size_t length, size_t k,
                                                            struct meanderpeg_part *part)
    MEANDERPEG_READS(1) MEANDERPEG_SETS(4);
MEANDERPEG_FUNCTION uint32_t meanderpeg_directory_numbers(const uint8_t *directory, size_t length, size_t k,
                                                          struct meanderpeg_directory_entry *numbers)
    MEANDERPEG_READS(1) MEANDERPEG_SETS(4);

/* ---- Refusals in words ---- */

static inline const char *meanderpeg_refusal_text(uint32_t refusal) {
    switch (refusal) {
    case MEANDERPEG_OK: return "no refusal";
    case MEANDERPEG_WINDOW_END: return "the window ends above 2^64";
    case MEANDERPEG_DESCRIPTOR_COUNT: return "the list has more than 256 descriptors";
    case MEANDERPEG_DESCRIPTOR_ADDRESS: return "a descriptor is not at a multiple of 8 or not wholly in the window";
    case MEANDERPEG_BLOCK_OUTSIDE: return "a block is not wholly in the window";
    case MEANDERPEG_TOTAL_LENGTH: return "the blocks have more than 16,777,216 bytes in all";
    case MEANDERPEG_TOTAL_ZERO: return "the list has no block";
    case MEANDERPEG_NO_PLACE: return "the window has no free place for the bytes of all blocks";
    case MEANDERPEG_CAPSULE_SHORT: return "the capsule is shorter than 28 bytes";
    case MEANDERPEG_CAPSULE_SIZES: return "the capsule's HeaderSize or CapsuleImageSize is at fault";
    case MEANDERPEG_CAPSULE_FLAGS: return "the capsule's flags ask for a reset but not to persist across it";
    case MEANDERPEG_CAPSULE_GUID: return "the capsule's GUID is not that of a firmware management capsule";
    case MEANDERPEG_CAPSULE_BODY: return "the capsule's body is at fault: its length, version, counts or offsets";
    case MEANDERPEG_CAPSULE_PAYLOAD: return "a payload of the capsule is at fault: its version or sizes";
    case MEANDERPEG_NO_ITEM: return "the capsule has no item of that number";
    case MEANDERPEG_AREA_LENGTH: return "the area is not 16,384 bytes long";
    case MEANDERPEG_NO_SOUND_COPY: return "no copy of the record is sound";
    case MEANDERPEG_NOT_SOUND_AND_EQUAL: return "the copies of the record are not both sound and equal: repair first";
    case MEANDERPEG_STORE_SLICE: return "the slice for stores is shorter than 4,200 numbers";
    case MEANDERPEG_STAGING_FAULT: return "the Staging session does not fit the record";
    case MEANDERPEG_SESSION_STATE: return "the call is not for this session, or the previous bank is not accepted";
    case MEANDERPEG_NO_IMAGE: return "the record has no image of that type GUID";
    case MEANDERPEG_IMAGES_MISSING: return "not every image has been committed";
    case MEANDERPEG_BOOTED_BANK: return "the record has no bank of the number that was started";
    case MEANDERPEG_DIRECTORY_WORDS: return "there are fewer than four words for each image of the record";
    case MEANDERPEG_DIRECTORY_PERMISSIONS: return "permissions of an image have one of bits 31 to 3";
    case MEANDERPEG_DIRECTORY_ROOM: return "the room is too short for the directory";
    case MEANDERPEG_DIRECTORY_SHORT: return "the directory is shorter than 24 bytes";
    case MEANDERPEG_DIRECTORY_HEADER: return "a field of the directory's header is at fault";
    case MEANDERPEG_DIRECTORY_LENGTH: return "the directory's length is not that of its header and entries";
    case MEANDERPEG_DIRECTORY_ENTRIES: return "an entry of the directory is at fault, or two have one type GUID";
    case MEANDERPEG_PACK_ITEMS: return "there are more than 64 drivers and payloads to pack";
    case MEANDERPEG_PACK_PART: return "a part to pack runs past the end of its slice";
    case MEANDERPEG_PACK_EMPTY_DRIVER: return "a driver to pack is empty";
    case MEANDERPEG_PACK_VERSION: return "the version of a payload to pack is neither 1 nor 2";
    case MEANDERPEG_PACK_INSTANCE: return "a payload to pack has version 1 and a hardware instance other than 0";
    case MEANDERPEG_PACK_FLAGS: return "the flags to pack ask for a reset but not to persist across it";
    case MEANDERPEG_PACK_SIZE: return "the capsule to pack would have more than 4,294,967,295 bytes";
    case MEANDERPEG_PACK_ROOM: return "the room is too short for the capsule to pack";
    default: return "no such refusal";
    }
}

#ifdef __cplusplus
}
#endif

#endif
