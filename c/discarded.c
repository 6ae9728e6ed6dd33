/* Every function of the library with its answer thrown away, and one with a null pointer: c/run counts the compiler's
 * warnings. */
#include "../include/meanderpeg.h"

void discarded(uint8_t *bytes, uint32_t *numbers, struct meanderpeg_session session);

void discarded(uint8_t *bytes, uint32_t *numbers, struct meanderpeg_session session) {
    struct meanderpeg_gathered gathered = {0};
    struct meanderpeg_counts counts = {0};
    struct meanderpeg_part part = {0};
    struct meanderpeg_directory shown = {0};
    struct meanderpeg_directory_entry five = {0};
    uint64_t instance = 0;
    size_t length = 0;
    meanderpeg_gather(bytes, 1, 0, 0, &gathered);
    meanderpeg_capsule_check(bytes, 1, &counts);
    meanderpeg_capsule_item(bytes, 1, 0, &part);
    meanderpeg_capsule_image(bytes, 1, 0, &part);
    meanderpeg_capsule_vendor_code(bytes, 1, 0, &part);
    meanderpeg_capsule_type_guid(bytes, 1, 0, bytes);
    meanderpeg_capsule_image_index(bytes, 1, 0, bytes);
    meanderpeg_capsule_hardware_instance(bytes, 1, 0, &instance);
    meanderpeg_capsule_packed_size(0, bytes, 1, bytes, 1, bytes, 1, bytes, 1, bytes, 1, &length);
    meanderpeg_capsule_pack(0, bytes, 1, bytes, 1, bytes, 1, bytes, 1, bytes, 1, bytes, 1, &length);
    meanderpeg_soundness(bytes, 1, numbers);
    meanderpeg_report(bytes, 1, bytes, 1);
    meanderpeg_start_up(bytes, 1, 0);
    meanderpeg_repair(bytes, 1, numbers, 1);
    meanderpeg_begin(session, bytes, 1, numbers, 1);
    meanderpeg_commit(session, bytes, 1, bytes, MEANDERPEG_IMAGE_ACCEPTED, numbers, 1);
    meanderpeg_end(session, bytes, 1, numbers, 1);
    meanderpeg_cancel(session, bytes, 1, numbers, 1);
    meanderpeg_accept(session, bytes, 1, bytes, numbers, 1);
    meanderpeg_select_previous(session, bytes, 1, numbers, 1);
    meanderpeg_directory_write(bytes, 1, 0, numbers, 1, bytes, 1, &length);
    meanderpeg_directory_check(bytes, 1, &shown);
    meanderpeg_directory_type_guid(bytes, 1, 0, &part);
    meanderpeg_directory_numbers(bytes, 1, 0, &five);
    (void)!meanderpeg_soundness(NULL, 0, numbers);
}
