/* Wrong exports, for a trial of the test itself: linked with --wrap, each of these stands before the
 * export of its name, and WRONG in the environment says what it does wrong. The test must fail by each. */
#include <stdlib.h>
#include <string.h>

#include "../../include/fulandewu.h"

static int wrong(const char *what) {
    const char *asked = getenv("WRONG");
    return asked != NULL && strcmp(asked, what) == 0;
}

/* A NaN by another pattern than the one that is handed out. */
static void change_nan(double *distance) {
    const uint64_t pattern = 0xfff8000000000000u;
    if (*distance != *distance) memcpy(distance, &pattern, sizeof pattern);
}

static void exchange(uint64_t *a, uint64_t *b) {
    const uint64_t kept = *a;
    *a = *b, *b = kept;
}

/* How many of the first values of a sparse body are stored zeros. */
static uint64_t zeros_in(const uint8_t *values, uint64_t count) {
    const uint8_t zero[4] = {0, 0, 0, 0};
    uint64_t zeros = 0;
    for (uint64_t i = 0; i < count; i++) zeros += memcmp(values + 4 * i, zero, 4) == 0;
    return zeros;
}

#define READ_ARGUMENTS uint8_t mode, const uint8_t *blob, size_t n, struct fulandewu_answer *answer
uint32_t __real_fulandewu_read(READ_ARGUMENTS);
uint32_t __wrap_fulandewu_read(READ_ARGUMENTS);
uint32_t __wrap_fulandewu_read(READ_ARGUMENTS) {
    if (wrong("modes_exchanged")) mode = mode == FULANDEWU_PLAIN;
    if (wrong("another_byte_reads_plainly") && mode > FULANDEWU_STRICT) mode = FULANDEWU_PLAIN;
    uint32_t refusal = __real_fulandewu_read(mode, blob, n, answer);
    if (wrong("reads_a_byte_past")) (void)*(volatile const uint8_t *)(blob + n);
    if (wrong("reads_a_byte_before")) (void)*(volatile const uint8_t *)(blob - 1);
    if (wrong("reads_through_null") && blob == NULL) (void)*(volatile const uint8_t *)blob;
    if (wrong("writes_the_blob") && n > 0) *(volatile uint8_t *)blob = *blob;
    if (wrong("kind_on_a_refusal") && refusal) answer->kind = 0;
    if (wrong("kind_in_1_byte") && refusal == 0) memset((uint8_t *)&answer->kind + 1, 0xa5, 7);
    if (wrong("length_not_written") && refusal == 0) memset(&answer->length, 0xa5, 8);
    if (wrong("length_for_dims") && refusal == 0) answer->dims = answer->length;
    if (wrong("all_fields_cleared") && refusal == 0) memset(&answer->needed, 0, 8 * 28);
    if (wrong("entry_on_another_refusal") && refusal && refusal != 8 && refusal != 10) answer->entry = 0;
    if (wrong("entry_on_an_answer") && refusal == 0) answer->entry = 0;
    if (wrong("entry_0") && refusal == 8) answer->entry = 0;
    if (wrong("a_byte_offset_as_entry") && refusal == 8) answer->entry *= 4;
    if (wrong("the_entry_before") && refusal == 10) answer->entry -= 1;
    if (wrong("entry_of_10_not_written") && refusal == 10) memset(&answer->entry, 0xa5, 8);
    if (wrong("dims_for_readings") && refusal == 0) answer->readings = answer->dims;
    if (wrong("readings_held_to_dims") && refusal == 0 && answer->readings > answer->dims)
        answer->readings = answer->dims;
    if (wrong("stored_zeros_not_counted") && refusal == 0 && answer->kind == FULANDEWU_FLOAT32_SPARSE)
        answer->readings -= zeros_in(blob, answer->readings);
    if (wrong("readings_not_written") && refusal == 0) memset(&answer->readings, 0xa5, 8);
    if (wrong("readings_on_a_refusal") && refusal) answer->readings = 0;
    if (wrong("other_readings_of_one_blob") && refusal == 0) answer->other_readings = 0;
    if (wrong("the_first_reserved_field")) answer->reserved[0] = 0;
    if (wrong("the_last_reserved_field")) answer->reserved[16] = 0;
    if (wrong("a_33rd_field")) ((volatile uint64_t *)answer)[32] = 0;
    if (wrong("a_field_before")) ((volatile uint64_t *)answer)[-1] = 0;
    return wrong("another_number") && refusal == 7 ? 6 : refusal;
}

/* The readings of a blob that is accepted. */
static uint64_t readings_of(const uint8_t *blob, size_t n) {
    struct fulandewu_answer answer;
    __real_fulandewu_read(FULANDEWU_PLAIN, blob, n, &answer);
    return answer.readings;
}

#define WRITE_ARGUMENTS \
    uint8_t kind, size_t dims, const uint8_t *body, size_t n, uint8_t *out, size_t room, \
        struct fulandewu_answer *answer
uint32_t __real_fulandewu_write(WRITE_ARGUMENTS);
uint32_t __wrap_fulandewu_write(WRITE_ARGUMENTS);
uint32_t __wrap_fulandewu_write(WRITE_ARGUMENTS) {
    uint32_t refusal = __real_fulandewu_write(kind, dims, body, n, out, room, answer);
    if (wrong("a_byte_past_the_blob") && refusal == 0 && answer->length < room) out[answer->length] = 0;
    if (wrong("a_byte_past_the_buffer") && refusal == 0) out[room] = 0;
    if (wrong("a_byte_on_a_refusal") && refusal && room > 0) out[0] = 0;
    if (wrong("the_writer_counts_from_1") && refusal == 8) answer->entry += 1;
    if (wrong("needs_one_more") && refusal == 15) answer->needed += 1;
    if (wrong("needed_on_an_answer") && refusal == 0) answer->needed = 0;
    if (wrong("needed_as_length") && refusal == 15) answer->length = answer->needed;
    if (wrong("the_writer_counts_readings") && refusal == 0) answer->readings = dims;
    return refusal;
}

#define CONVERT_ARGUMENTS \
    const uint8_t *blob, size_t n, uint8_t kind, uint8_t *scratch, size_t scratch_room, uint8_t *out, size_t room, \
        struct fulandewu_answer *answer
uint32_t __real_fulandewu_convert(CONVERT_ARGUMENTS);
uint32_t __wrap_fulandewu_convert(CONVERT_ARGUMENTS);
uint32_t __wrap_fulandewu_convert(CONVERT_ARGUMENTS) {
    uint32_t refusal = __real_fulandewu_convert(blob, n, kind, scratch, scratch_room, out, room, answer);
    if (wrong("scratch_for_all") && refusal == 0 && scratch_room > 0) scratch[0] = 0;
    if (wrong("writes_nothing") && refusal == 0 && answer->length > 0) memset(out, 0xa5, answer->length);
    if (wrong("kind_of_a_conversion") && refusal == 0) answer->kind = kind;
    if (wrong("readings_of_the_source") && refusal == 0) answer->readings = readings_of(blob, n);
    if (wrong("dims_for_the_new_readings") && refusal == 0) answer->readings = answer->dims;
    if (wrong("new_readings_not_written") && refusal == 0) memset(&answer->readings, 0xa5, 8);
    if (wrong("readings_with_a_need") && (refusal == 15 || refusal == 17)) answer->readings = readings_of(blob, n);
    return refusal;
}

#define DISTANCE_ARGUMENTS \
    const uint8_t *first, size_t n, const uint8_t *second, size_t m, struct fulandewu_answer *answer
uint32_t __real_fulandewu_distance_cos(DISTANCE_ARGUMENTS);
uint32_t __wrap_fulandewu_distance_cos(DISTANCE_ARGUMENTS);
uint32_t __wrap_fulandewu_distance_cos(DISTANCE_ARGUMENTS) {
    uint32_t refusal = __real_fulandewu_distance_cos(first, n, second, m, answer);
    if (wrong("which_on_an_answer") && refusal == 0) answer->which = 0;
    if (wrong("which_not_written") && refusal) memset(&answer->which, 0xa5, 8);
    if (wrong("entry_not_written") && refusal == 8) memset(&answer->entry, 0xa5, 8);
    if (wrong("zero_on_a_refusal") && refusal) answer->distance = 0;
    if (wrong("another_nan") && refusal == 0) change_nan(&answer->distance);
    if (wrong("another_nan_on_a_refusal") && refusal) change_nan(&answer->distance);
    if (wrong("zero_for_nan") && refusal == 0 && answer->distance != answer->distance) answer->distance = 0;
    if (wrong("readings_exchanged") && refusal == 0) exchange(&answer->readings, &answer->other_readings);
    if (wrong("the_same_readings_twice") && refusal == 0) answer->other_readings = answer->readings;
    if (wrong("other_readings_not_written") && refusal == 0) memset(&answer->other_readings, 0xa5, 8);
    if (wrong("readings_of_a_refused_pair") && refusal >= 12) answer->readings = readings_of(first, n);
    if (wrong("other_readings_on_a_refusal") && refusal) answer->other_readings = 0;
    return refusal;
}

#define NEARER_ARGUMENTS \
    const uint8_t *probe, size_t n, const uint8_t *first, size_t m, const uint8_t *second, size_t k, \
        struct fulandewu_answer *answer
uint32_t __real_fulandewu_nearer_l2(NEARER_ARGUMENTS);
uint32_t __wrap_fulandewu_nearer_l2(NEARER_ARGUMENTS);
uint32_t __wrap_fulandewu_nearer_l2(NEARER_ARGUMENTS) {
    uint32_t refusal = __real_fulandewu_nearer_l2(probe, n, first, m, second, k, answer);
    if (wrong("nearer_as_which") && refusal == 0) answer->which = answer->nearer;
    if (wrong("the_other_candidate") && refusal == 0) answer->nearer = 3 - answer->nearer;
    if (wrong("nearer_on_a_refusal") && refusal) answer->nearer = 0;
    if (wrong("readings_of_the_probe") && refusal == 0) answer->readings = readings_of(probe, n);
    if (wrong("readings_of_the_first") && refusal == 0) answer->readings = readings_of(first, m);
    if (wrong("readings_of_the_second") && refusal == 0) answer->readings = readings_of(second, k);
    if (wrong("readings_of_no_nearer") && refusal == 18) answer->readings = 0;
    if (wrong("other_readings_of_a_nearer") && refusal == 0) answer->other_readings = readings_of(probe, n);
    if (wrong("readings_of_a_nearer_not_written") && refusal == 0) memset(&answer->readings, 0xa5, 8);
    return refusal;
}

#define FVECS_READ_ARGUMENTS const uint8_t *file, size_t n, size_t place, struct fulandewu_answer *answer
uint32_t __real_fulandewu_fvecs_read(FVECS_READ_ARGUMENTS);
uint32_t __wrap_fulandewu_fvecs_read(FVECS_READ_ARGUMENTS);
uint32_t __wrap_fulandewu_fvecs_read(FVECS_READ_ARGUMENTS) {
    uint32_t refusal = __real_fulandewu_fvecs_read(file, n, place, answer);
    int vector = refusal == 0 && answer->found == 1, end = refusal == 0 && !vector;
    if (wrong("a_byte_past_the_file")) (void)*(volatile const uint8_t *)(file + n);
    if (wrong("a_file_through_null") && file == NULL) (void)*(volatile const uint8_t *)file;
    if (wrong("writes_the_file") && vector) *(volatile uint8_t *)(file + place) = file[place];
    if (wrong("start_as_next") && vector) answer->next = answer->start;
    if (wrong("the_count_as_start") && vector) answer->start = place;
    if (wrong("bytes_as_dims") && vector) answer->dims = answer->next - answer->start;
    if (wrong("next_at_the_end") && end) answer->next = place;
    if (wrong("dims_at_the_end") && end) answer->dims = 0;
    if (wrong("readings_in_a_file") && vector) answer->readings = answer->dims;
    if (wrong("found_not_written") && end) memset(&answer->found, 0xa5, 8);
    if (wrong("found_on_a_refusal") && refusal) answer->found = 0;
    if (wrong("place_0") && refusal == 19) answer->place = 0;
    if (wrong("place_not_written") && refusal == 19) memset(&answer->place, 0xa5, 8);
    if (wrong("place_on_an_answer") && refusal == 0) answer->place = place;
    if (wrong("an_empty_vector_as_the_end") && vector && answer->dims == 0) answer->found = 0;
    return wrong("a_cut_count_as_the_end") && refusal == 19 && n - place < 4 ? 0 : refusal;
}

#define BVECS_READ_ARGUMENTS \
    const uint8_t *file, size_t n, size_t place, uint8_t *out, size_t room, struct fulandewu_answer *answer
uint32_t __real_fulandewu_bvecs_read(BVECS_READ_ARGUMENTS);
uint32_t __wrap_fulandewu_bvecs_read(BVECS_READ_ARGUMENTS);
uint32_t __wrap_fulandewu_bvecs_read(BVECS_READ_ARGUMENTS) {
    uint32_t refusal = __real_fulandewu_bvecs_read(file, n, place, out, room, answer);
    int vector = refusal == 0 && answer->found == 1, end = refusal == 0 && !vector;
    if (wrong("a_float_past_the_file") && vector) (void)*(volatile const uint8_t *)(file + n + 3);
    if (wrong("a_byte_past_the_floats") && vector && 4 * answer->dims < room) out[4 * answer->dims] = 0;
    if (wrong("a_float_past_the_buffer") && vector && answer->dims > 0) out[room] = 0;
    if (wrong("floats_at_the_end") && end && room > 0) out[0] = 0;
    if (wrong("floats_on_a_refusal") && refusal && room > 0) out[0] = 0;
    if (wrong("no_floats") && vector && answer->dims > 0) memset(out, 0xa5, 4 * answer->dims);
    if (wrong("needs_a_byte_each") && refusal == 15) answer->needed /= 4;
    if (wrong("found_is_2") && vector) answer->found = 2;
    return refusal;
}

#define APPEND_ARGUMENTS \
    const uint8_t *blob, size_t n, uint8_t *out, size_t room, size_t fill, struct fulandewu_answer *answer
uint32_t __real_fulandewu_fvecs_append(APPEND_ARGUMENTS);
uint32_t __wrap_fulandewu_fvecs_append(APPEND_ARGUMENTS);
uint32_t __wrap_fulandewu_fvecs_append(APPEND_ARGUMENTS) {
    uint32_t refusal = __real_fulandewu_fvecs_append(blob, n, out, room, fill, answer);
    if (wrong("a_byte_before_the_fill") && refusal == 0 && fill > 0) out[fill - 1] = 0;
    if (wrong("a_byte_past_the_new_fill") && refusal == 0 && answer->fill < room) out[answer->fill] = 0;
    if (wrong("a_count_on_a_refusal") && refusal == 15 && room > 0) out[room - 1] = 0;
    if (wrong("a_count_of_bytes") && refusal == 0 && answer->fill > fill + 4) out[fill] *= 4;
    if (wrong("needs_the_fill_too") && refusal == 15) answer->needed += fill;
    if (wrong("fill_on_a_refusal") && refusal) answer->fill = fill;
    if (wrong("fill_not_written") && refusal == 0) memset(&answer->fill, 0xa5, 8);
    if (wrong("length_for_fill") && refusal == 0) answer->length = answer->fill - fill;
    if (wrong("readings_of_what_is_appended") && refusal == 0) answer->readings = readings_of(blob, n);
    return refusal;
}
