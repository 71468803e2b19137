/* Every exported call from C: an answer, a refusal that leaves all as it was, and areas as long as the header says. */
#include <math.h>
#include <stdio.h>
#include <stdlib.h>
#include "gentropi.h"

static int failures = 0;

static void check(bool holds, const char *what, int line) {
    if (holds) return;
    failures++;
    printf("line %d: %s\n", line, what);
}

#define CHECK(holds) check((holds), #holds, __LINE__)

static void similarity(void) {
    const uint8_t lhs[] = { 's', 'r', 'c', '/', 'a' }, rhs[] = { 's', 'r', 'c', '/', 'b' };
    static const uint8_t too_long[1025];
    uint32_t score = 99;
    CHECK(gentropi_similarity(too_long, GENTROPI_ID_BYTES + 1, rhs, 5, &score) == GENTROPI_ID);
    CHECK(score == 99);
    CHECK(gentropi_similarity(lhs, 5, rhs, 5, &score) == GENTROPI_ACCEPTED);
    CHECK(score == 49);
}

static void cut(void) {
    const uint8_t bytes[] = { 'm', '1', 'm', '2', 'm', '3' };
    const uint32_t offsets[] = { 0, 2, 4, 6 };
    const uint64_t sizes[] = { 10, 20, 30 };
    uint8_t why_none = 99;
    size_t index = 99;
    double left = 99, right = 98;
    CHECK(gentropi_cut(3, bytes, 6, offsets, 4, sizes, 3, NAN, 40, &why_none, &index, &left, &right) == GENTROPI_NAN);
    CHECK(gentropi_cut(3, bytes, 6, offsets, 3, sizes, 3, 0, 40, &why_none, &index, &left, &right) == GENTROPI_LENGTH);
    CHECK(why_none == 99 && index == 99 && left == 99 && right == 98);
    CHECK(gentropi_cut(3, bytes, 6, offsets, 4, sizes, 3, 31, 40, &why_none, &index, &left, &right) == GENTROPI_ACCEPTED);
    CHECK(why_none == GENTROPI_CUT_NONE_ALLOWED && index == 99 && left == 99 && right == 98);
    CHECK(gentropi_cut(1, bytes, 6, offsets, 2, sizes, 1, 0, 40, &why_none, &index, &left, &right) == GENTROPI_ACCEPTED);
    CHECK(why_none == GENTROPI_CUT_FEWER_THAN_TWO && index == 99 && left == 99 && right == 98);
    CHECK(gentropi_cut(3, bytes, 6, offsets, 4, sizes, 3, 30, 40, &why_none, &index, &left, &right) == GENTROPI_ACCEPTED);
    CHECK(why_none == GENTROPI_CUT_FOUND && index == 2 && left == 30 && right == 30);
}

static void filter(void) {
    bool passes = false;
    CHECK(gentropi_filter(0, false, 0, true, 10, false, 0, 0, 10, 0, &passes) == GENTROPI_ACCEPTED);
    CHECK(passes);
    CHECK(gentropi_filter(0, false, 0, false, 0, false, 0, 0, GENTROPI_TOTAL_SIZE + 1, 0, &passes) == GENTROPI_TOTAL);
    CHECK(passes);
    CHECK(gentropi_filter(1, false, NAN, false, NAN, true, 2, 1, 10, 1, &passes) == GENTROPI_ACCEPTED);
    CHECK(!passes);
}

static void capture(void) {
    const uint8_t eligible = GENTROPI_NORMAL | GENTROPI_INCLUDED;
    const uint8_t flags[] = { eligible, eligible, (uint8_t)(eligible | GENTROPI_ASSIGNED) };
    const uint32_t first[] = { 1, 0, 0 }, dependency[] = { 9, 1, 2 }, next[] = { 9, 2, 0 };
    uint8_t marks[4] = { 9, 9, 9, 9 };
    uint32_t scratch[3] = { 9, 9, 9 };
    size_t words = gentropi_capture_scratch_words(3);
    CHECK(gentropi_capture(3, 2, true, 3, flags, 3, first, 3, dependency, 3, next, 3, marks, 4, scratch, words) == GENTROPI_NUMBER);
    CHECK(gentropi_capture(3, 2, true, 0, flags, 3, first, 3, dependency, 3, next, 3, marks, 2, scratch, words) == GENTROPI_AREA);
    CHECK(gentropi_capture(3, 2, true, 0, flags, 3, first, 3, dependency, 3, next, 3, marks, 4, scratch, words - 1) == GENTROPI_SCRATCH);
    CHECK(marks[0] == 9 && scratch[0] == 9);
    CHECK(gentropi_capture(3, 2, true, 0, flags, 3, first, 3, dependency, 3, next, 3, marks, 4, scratch, words) == GENTROPI_ACCEPTED);
    CHECK(marks[0] == 1 && marks[1] == 1 && marks[2] == 0 && marks[3] == 9);
    CHECK(scratch[0] == 0 && scratch[1] == 0 && scratch[2] == 0);
}

static void merge(void) {
    const uint64_t sizes[] = { 5, 100, 50 }, bits[] = { 1, 0, 0, 0, 2, 0, 0, 0, 3, 0, 0, 0 };
    uint32_t numbers[3] = { 9, 9, 9 };
    uint64_t final_sizes[3] = { 9, 9, 9 }, final_bits[12] = { 9, 9, 9, 9, 9, 9, 9, 9, 9, 9, 9, 9 };
    size_t words = gentropi_bits_words(3);
    CHECK(words == 12);
    CHECK(gentropi_merge(3, 1, sizes, 3, bits, 12, 10, numbers, 3, final_sizes, 3, final_bits, words) == GENTROPI_BIT);
    CHECK(gentropi_merge(3, 2, sizes, 3, bits, 12, 10, numbers, 3, final_sizes, 3, final_bits, words - 1) == GENTROPI_AREA);
    CHECK(numbers[0] == 9 && final_sizes[0] == 9 && final_bits[0] == 9);
    CHECK(gentropi_merge(3, 2, sizes, 3, bits, 12, 10, numbers, 3, final_sizes, 3, final_bits, words) == GENTROPI_ACCEPTED);
    CHECK(numbers[0] == 2 && numbers[1] == 1 && numbers[2] == 2);
    CHECK(final_sizes[0] == 0 && final_sizes[1] == 100 && final_sizes[2] == 55);
    CHECK(final_bits[0] == 0 && final_bits[4] == 2 && final_bits[8] == 3);
}

/* Two modules and two groups; each group gives each module a name, the first one name, the second two. The second has a maximum of 6. */
struct build {
    uint32_t chunk_of[2], next_of[2], first_of[2], group_of[2], name_of[2];
    double size_of[2];
    uint64_t bits_of[8];
    gentropi_mark mark_of[4];
    uint32_t scratch[256];
    size_t count;
};

static const uint32_t ANSWERS[] = { 2, 2, 3, 2 };

static uint32_t split(struct build *b, size_t records, size_t marks, size_t words) {
    static const uint8_t flags[] = { 3, 3 }, bytes[] = { 'a', 'b' };
    static const uint8_t given[] = { GENTROPI_MIN_SIZE, GENTROPI_RECURSION | GENTROPI_MAX_SIZE };
    static const uint64_t sizes[] = { 5, 7 }, tags[] = { 0, 0 }, bits[] = { 1, 0, 0, 0, 2, 0, 0, 0 }, masks[] = { 0, 0 };
    static const uint32_t orders[] = { 0, 1 }, shares[] = { 1, 1 }, offsets[] = { 0, 1, 2 }, first[] = { 0, 0 }, record[] = { 0 };
    static const uint32_t zeros[] = { 0, 0 };
    static const double least[] = { 13, 0 }, most[] = { 0, 6 }, none[] = { 0, 0 };
    return gentropi_chunks(
        2, 2, 2, 2, 0,
        flags, 2, sizes, 2, orders, 2, shares, 2, tags, 2, bits, 8, bytes, 2, offsets, 3, first, 2, record, 1, record, 1,
        0, 0, 0, 0, 0, 0,
        given, 2, least, 2, most, 2, none, 2, none, 2, zeros, 2, masks, 2, zeros, 2, none, 2,
        ANSWERS, 4, 10,
        b->chunk_of, 2, b->next_of, 2, b->first_of, records, b->group_of, 2, b->name_of, 2, b->size_of, 2, b->bits_of, 8,
        b->mark_of, marks, b->scratch, words, &b->count);
}

static void chunks(void) {
    struct build b, before;
    size_t words = gentropi_chunks_scratch_words(ANSWERS, 2, 2);
    CHECK(words == (32 + 1 + 2) * 2);
    memset(&b, 9, sizeof b);
    before = b;
    CHECK(split(&b, 2, 4, words - 1) == GENTROPI_SCRATCH);
    CHECK(split(&b, 1, 4, words) == GENTROPI_AREA);
    CHECK(split(&b, 2, 1, words) == GENTROPI_AREA);
    CHECK(memcmp(&b, &before, sizeof b) == 0);
    CHECK(split(&b, 2, 4, words) == GENTROPI_ACCEPTED);
    /* The first group drops its item of 12 bytes, the second makes a chunk of each module, name by name. */
    CHECK(b.count == 2);
    CHECK(b.group_of[0] == 1 && b.group_of[1] == 1);
    CHECK(b.chunk_of[b.first_of[0] - 1] == 11 && b.chunk_of[b.first_of[1] - 1] == 12);
    CHECK(b.size_of[0] + b.size_of[1] == 12);
    CHECK(b.bits_of[0] + b.bits_of[4] == 3);
    /* The chunk of 7 bytes comes first. */
    CHECK(b.mark_of[0] == GENTROPI_MARK_ONE_MODULE && b.mark_of[1] == GENTROPI_MARK_WITHIN && b.mark_of[2] == 9 && b.mark_of[3] == 9);
    CHECK(b.next_of[0] == 0 && b.next_of[1] == 0);
    for (size_t word = 0; word < words; word++) CHECK(b.scratch[word] == 0);
    CHECK(memcmp(b.scratch + words, before.scratch + words, sizeof b.scratch - words * sizeof *b.scratch) == 0);
}

/* Two names of groups, "ui" and one of 101 bytes; entries "a", "" and "b". */
static uint32_t named(uint32_t number, bool aware, uint64_t entries, size_t hash, uint8_t *name, size_t area, size_t *length) {
    static const uint8_t digits[] = { '0', '1', '2', '3', '4', '5', '6', '7', '8' }, entry_names[] = { 'a', 'b' };
    static const uint32_t group_offsets[] = { 0, 2, 103 }, entry_offsets[] = { 0, 1, 1, 2 };
    uint8_t group_names[103];
    memset(group_names, 'v', sizeof group_names);
    memcpy(group_names, "ui", 2);
    return gentropi_name(
        2, 3, group_names, sizeof group_names, group_offsets, 3, entry_names, 2, entry_offsets, 4,
        number, aware, entries, 0, 0, 0, digits, hash, name, area, length);
}

static void name(void) {
    uint8_t area[120], before[120];
    size_t length = 99, shortest = gentropi_name_bytes(2), longest = gentropi_name_bytes(101);
    memset(area, 9, sizeof area);
    memcpy(before, area, sizeof area);
    CHECK(shortest == 100 && longest == 101);
    CHECK(named(2, true, 7, 8, area, shortest, &length) == GENTROPI_NUMBER);
    CHECK(named(0, true, 7, 8, area, shortest - 1, &length) == GENTROPI_AREA);
    CHECK(named(1, true, 7, 8, area, longest - 1, &length) == GENTROPI_AREA);
    CHECK(named(0, true, 7, 9, area, shortest, &length) == GENTROPI_HASH);
    CHECK(length == 99 && memcmp(area, before, sizeof area) == 0);
    CHECK(named(0, true, 7, 8, area, shortest, &length) == GENTROPI_ACCEPTED);
    CHECK(length == 6 && memcmp(area, "ui~a~b", 6) == 0 && memcmp(area + 6, before + 6, sizeof area - 6) == 0);
    CHECK(named(1, false, 7, 8, area, longest, &length) == GENTROPI_ACCEPTED);
    CHECK(length == 101 && area[100] == 'v' && area[101] == 9);
    CHECK(named(1, true, 7, GENTROPI_HASH_BYTES, area, longest, &length) == GENTROPI_ACCEPTED);
    CHECK(length == GENTROPI_CHUNK_NAME_BYTES && area[90] == 'v' && memcmp(area + 91, "~01234567", 9) == 0);
}

int main(void) {
    similarity();
    cut();
    filter();
    capture();
    merge();
    chunks();
    name();
    printf("%d failures\n", failures);
    return failures != 0;
}
