/* The layouts of the header's structs, as numbers. It compiles for every target that the library is for, or the target
 * reads a struct otherwise than the code writes it: the modules have these offsets as numbers of bytes. */
#include "../include/meanderpeg.h"

#define AT(type, field, offset) _Static_assert(offsetof(struct type, field) == (offset), #type " " #field)
#define BYTES(type, bytes) _Static_assert(sizeof(type) == (bytes), #type)

AT(meanderpeg_gathered, address, 0);
AT(meanderpeg_gathered, total, 8);
BYTES(struct meanderpeg_gathered, 16);
AT(meanderpeg_counts, drivers, 0);
AT(meanderpeg_counts, payloads, 8);
BYTES(struct meanderpeg_counts, 16);
AT(meanderpeg_part, start, 0);
AT(meanderpeg_part, length, 8);
BYTES(struct meanderpeg_part, 16);
AT(meanderpeg_session, kind, 0);
AT(meanderpeg_session, bank, 4);
AT(meanderpeg_session, set, 8);
BYTES(struct meanderpeg_session, 12);
AT(meanderpeg_answer, refusal, 0);
AT(meanderpeg_answer, told, 4);
AT(meanderpeg_answer, session, 12);
AT(meanderpeg_answer, pairs, 24);
BYTES(struct meanderpeg_answer, 32);
AT(meanderpeg_directory, images, 0);
AT(meanderpeg_directory, correct_boot, 4);
BYTES(struct meanderpeg_directory, 8);
AT(meanderpeg_directory_entry, permissions, 0);
AT(meanderpeg_directory_entry, maximum_size, 4);
AT(meanderpeg_directory_entry, lowest_accepted_version, 8);
AT(meanderpeg_directory_entry, version, 12);
AT(meanderpeg_directory_entry, accepted, 16);
BYTES(struct meanderpeg_directory_entry, 20);
AT(meanderpeg_driver_entry, start, 0);
AT(meanderpeg_driver_entry, length, 8);
BYTES(struct meanderpeg_driver_entry, MEANDERPEG_DRIVER_ENTRY_BYTES);
AT(meanderpeg_payload_entry, version, 0);
AT(meanderpeg_payload_entry, type_guid, 4);
AT(meanderpeg_payload_entry, image_index, 20);
AT(meanderpeg_payload_entry, unused, 21);
AT(meanderpeg_payload_entry, hardware_instance, 24);
AT(meanderpeg_payload_entry, image_start, 32);
AT(meanderpeg_payload_entry, image_length, 40);
AT(meanderpeg_payload_entry, vendor_code_start, 48);
AT(meanderpeg_payload_entry, vendor_code_length, 56);
BYTES(struct meanderpeg_payload_entry, MEANDERPEG_PAYLOAD_ENTRY_BYTES);
BYTES(size_t, 8);
BYTES(void *, 8);
#if __BYTE_ORDER__ != __ORDER_LITTLE_ENDIAN__
#error "not little-endian"
#endif
