// The header from C++: the layout of the answer, a blob read in both modes, readings counted, and a file of vectors
// made and walked.
#include "../../include/fulandewu.h"

#include <cstring>
#include <type_traits>

static_assert(std::is_standard_layout<fulandewu_answer>::value && std::is_trivial<fulandewu_answer>::value,
              "an answer is plain memory");
static_assert(sizeof(fulandewu_answer) == 256 && alignof(fulandewu_answer) == 8, "32 fields of 8 bytes");
static_assert(offsetof(fulandewu_answer, nearer) == 8 * 6 && offsetof(fulandewu_answer, readings) == 8 * 8
                  && offsetof(fulandewu_answer, place) == 8 * 12 && offsetof(fulandewu_answer, reserved) == 8 * 15,
              "the fields stand at their places");

static bool reads_a_blob() {
    const uint8_t blob[] = {0xff, 0x09, FULANDEWU_FLOAT1BIT};
    fulandewu_answer answer = {};
    const uint32_t refusal = fulandewu_read(FULANDEWU_PLAIN, blob, sizeof blob, &answer);
    const bool read = answer.kind == FULANDEWU_FLOAT1BIT && answer.dims == 7 && answer.length == 1;
    if (refusal != FULANDEWU_ANSWERED || !read || answer.readings != 7 || answer.needed != 0) return false;
    return fulandewu_read(FULANDEWU_STRICT, blob, sizeof blob, &answer) == FULANDEWU_UNUSED_BIT_SET;
}

// Two readings of three places and none, measured both ways round, then chosen from.
static bool counts_readings() {
    const uint8_t two[] = {0, 0, 0x70, 0x42, 0, 0, 0xa0, 0x42, 0, 0, 0, 0, 2, 0, 0, 0, 3, 0, 0, 0, 9};
    const uint8_t none[] = {3, 0, 0, 0, FULANDEWU_FLOAT32_SPARSE};
    fulandewu_answer answer = {};
    fulandewu_distance_l2(two, sizeof two, none, sizeof none, &answer);
    if (answer.distance != 100 || answer.readings != 2 || answer.other_readings != 0) return false;
    fulandewu_distance_l2(none, sizeof none, two, sizeof two, &answer);
    if (answer.distance != 100 || answer.readings != 0 || answer.other_readings != 2) return false;
    fulandewu_nearer_l2(none, sizeof none, two, sizeof two, two, sizeof two, &answer);
    return answer.nearer == FULANDEWU_FIRST && answer.readings == 2;
}

// 60, 80 twice, one after the other; there is no room for a third, and a byte less cuts the second.
static bool makes_a_file() {
    const uint8_t ride[] = {0, 0, 0x70, 0x42, 0, 0, 0xa0, 0x42};
    uint8_t file[30];
    fulandewu_answer answer = {};
    while (fulandewu_fvecs_append(ride, sizeof ride, file, sizeof file, answer.fill, &answer) == FULANDEWU_ANSWERED) {}
    const size_t filled = answer.fill;
    if (filled != 24 || answer.needed != 12) return false;
    size_t place = 0, vectors = 0;
    while (fulandewu_fvecs_read(file, filled, place, &answer) == FULANDEWU_ANSWERED && answer.found == 1) {
        if (answer.dims != 2 || std::memcmp(file + answer.start, ride, answer.next - answer.start) != 0) return false;
        place = answer.next;
        vectors++;
    }
    if (vectors != 2 || place != filled) return false;
    return fulandewu_fvecs_read(file, filled - 1, 12, &answer) == FULANDEWU_FILE_ENDS_INSIDE && answer.place == 12;
}

static bool widens_bytes() {
    const uint8_t file[] = {2, 0, 0, 0, 60, 80};
    float ride[2];
    uint8_t out[sizeof ride];
    fulandewu_answer answer = {};
    if (fulandewu_bvecs_read(file, sizeof file, 0, out, sizeof out, &answer) != FULANDEWU_ANSWERED) return false;
    std::memcpy(ride, out, sizeof ride);
    return answer.found == 1 && answer.dims == 2 && ride[0] == 60 && ride[1] == 80;
}

int main() { return reads_a_blob() && counts_readings() && makes_a_file() && widens_bytes() ? 0 : 1; }
