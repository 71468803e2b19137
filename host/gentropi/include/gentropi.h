/*
 * The chunk list, proved: the functions of libgentropi.a for C. docs/HOSTS.md explains them on one page.
 *
 * Each function answers 0, or the number of a refusal (enum gentropi_refusal); then nothing that was lent has changed.
 * No function has a condition on the numbers that it is handed: it tests them.
 *
 * What the caller owes: a pointer and the length after it are an array of so many items; a pointer without a length is one
 * item. Pointers are aligned and not null, also where the length is 0. What a function writes (a pointer without const)
 * overlaps nothing else that it is handed. A bool is 0 or 1.
 *
 * Nothing is kept between calls: threads may call at the same time, with areas of their own.
 */
#ifndef GENTROPI_H
#define GENTROPI_H

#include <stdbool.h>
#include <stddef.h>
#include <stdint.h>
#include <string.h>

#ifdef __cplusplus
extern "C" {
#endif

/* Limits: counts above them are refused with 1, ids with 3, totals with 6. */
#define GENTROPI_MODULES ((size_t)4096)
#define GENTROPI_GROUPS ((size_t)64)
#define GENTROPI_ENTRIES ((size_t)256)
#define GENTROPI_NAMES ((size_t)65535)
#define GENTROPI_RECORDS ((size_t)65535)
#define GENTROPI_ID_BYTES ((size_t)1024)
#define GENTROPI_TOTAL_SIZE (UINT64_C(1) << 53)

/* Bytes of an entries-aware chunk's name at most, and of the hash at the end of one that is cut. */
#define GENTROPI_CHUNK_NAME_BYTES ((size_t)100)
#define GENTROPI_HASH_BYTES ((size_t)8)

/* Entry bits are four words for each module, subgroup or chunk; entry 0 is the lowest bit of the first word. */
#define GENTROPI_BITS_WORDS ((size_t)4)

/* Why a call was turned away: of the conditions that a call tests, the lowest that applies. */
enum gentropi_refusal {
    GENTROPI_ACCEPTED = 0,
    GENTROPI_COUNT = 1,       /* a count is above its limit */
    GENTROPI_LENGTH = 2,      /* a table's length is not the one that the counts imply */
    GENTROPI_ID = 3,          /* an offset of ids or names falls or passes the end, or an id is too long */
    GENTROPI_SAME_ID = 4,     /* two normal included modules have the same stable id */
    GENTROPI_SAME_ORDER = 5,  /* two normal included modules have the same execution order */
    GENTROPI_TOTAL = 6,       /* the sizes add to more than 2^53 */
    GENTROPI_RECORD = 7,      /* a record or the module it names is out of range, or a chain doesn't end */
    GENTROPI_NAN = 8,         /* a limit or a threshold is NaN */
    GENTROPI_BIT = 9,         /* a flag byte is above 7, or an entry bit is not below the count of entries */
    GENTROPI_NUMBER = 10,     /* an answer or a number is above the names, or the start module is out of range */
    GENTROPI_CHUNK_COUNT = 11, /* the chunk count on entry is above 65,535 */
    GENTROPI_AREA = 12,       /* an output area is shorter than the call needs */
    GENTROPI_SCRATCH = 13,    /* the scratch is shorter than the call needs */
    GENTROPI_UTF8 = 14,       /* a name isn't UTF-8 */
    GENTROPI_NAME_ORDER = 15, /* the names of groups don't strictly ascend in byte order */
    GENTROPI_HASH = 16        /* the hash isn't eight bytes below 128 */
};

/* The flag byte of a module sums these; it is eligible when it is normal and included and not assigned. */
enum gentropi_flag {
    GENTROPI_NORMAL = 1,
    GENTROPI_INCLUDED = 2,
    GENTROPI_ASSIGNED = 4
};

/* What a build or a group has is a byte that sums these; the number of an option that isn't given is not read. */
enum gentropi_given {
    GENTROPI_MIN_SIZE = 1,
    GENTROPI_MAX_SIZE = 2,
    GENTROPI_MIN_MODULE_SIZE = 4,
    GENTROPI_MAX_MODULE_SIZE = 8,
    GENTROPI_MIN_SHARE_COUNT = 16,
    GENTROPI_RECURSION = 32,     /* whether dependencies are captured is said; without it they are */
    GENTROPI_RECURSIVE = 64,     /* ... and they are */
    GENTROPI_ENTRIES_AWARE = 128 /* of a group only */
};

/* Where modules are cut, or why they aren't: what gentropi_cut writes into `why_none`. */
enum gentropi_why_none {
    GENTROPI_CUT_FOUND = 0,
    GENTROPI_CUT_FEWER_THAN_TWO = 1, /* there are fewer than two modules */
    GENTROPI_CUT_NONE_ALLOWED = 2    /* there are two or more, and each cut leaves a side below the minimum */
};

/* Whether a chunk is above its maximum, and why: its mark in `mark_of`. The maximum is the max_size in force, the group's or else that
 * of the build; so is the min_size, which is 0 where none is given. A mark speaks of the modules that the chunk holds. */
typedef uint8_t gentropi_mark;
enum gentropi_marks {
    GENTROPI_MARK_WITHIN = 0,        /* its size is at most its maximum, or it has none */
    GENTROPI_MARK_ONE_MODULE = 1,    /* above its maximum, with one module */
    GENTROPI_MARK_NO_CUT_ALLOWED = 2 /* above its maximum, with two or more; each cut in id order leaves a side below its min_size */
};

/* Answers about a module in `answers`: a name's number is added to the last. */
enum gentropi_answer {
    GENTROPI_NOT_MATCHED = 0,
    GENTROPI_NO_NAME = 1,
    GENTROPI_FIRST_NAME = 2
};

/* How much stack a call takes at most, in bytes, whatever it is handed: the frames of the archive's functions are fixed, and the
 * one that calls itself goes no deeper than an id has bytes. A test adds them up. */
#define GENTROPI_SIMILARITY_STACK_BYTES ((size_t)4096)
#define GENTROPI_CUT_STACK_BYTES ((size_t)4096)
#define GENTROPI_FILTER_STACK_BYTES ((size_t)4096)
#define GENTROPI_CAPTURE_STACK_BYTES ((size_t)163840)
#define GENTROPI_MERGE_STACK_BYTES ((size_t)65536)
#define GENTROPI_CHUNKS_STACK_BYTES ((size_t)589824)
#define GENTROPI_NAME_STACK_BYTES ((size_t)4096)

/* Similarity of two ids. Writes `score`. */
uint32_t gentropi_similarity(
    const uint8_t *lhs, size_t lhs_len,
    const uint8_t *rhs, size_t rhs_len,
    uint32_t *score);

/* Where `n` modules are cut in two. Id i is bytes[offsets[i]..offsets[i + 1]], so there are n + 1 offsets. Writes `why_none` (enum
 * gentropi_why_none), and if there is a cut how many modules are on the left and the sizes of the two sides; if there is none, the
 * other places stay as they were. */
uint32_t gentropi_cut(
    size_t n,
    const uint8_t *bytes, size_t bytes_len,
    const uint32_t *offsets, size_t offsets_len,
    const uint64_t *sizes, size_t sizes_len,
    double minimum,
    double maximum,
    uint8_t *why_none,
    size_t *index,
    double *left,
    double *right);

/* Whether a module passes the limits in force; the number after a false is not read. Writes `passes`. */
uint32_t gentropi_filter(
    uint64_t mask,
    bool has_min,
    double min_module_size,
    bool has_max,
    double max_module_size,
    bool has_shares,
    uint32_t min_share_count,
    uint64_t tags,
    uint64_t size,
    uint32_t share_count,
    bool *passes);

/* What the module `from` captures among `n` modules with `d` dependency records. Records are numbered from 1: both tables have
 * d + 1 items, of which the first is never read, and 0 ends a chain. Writes the first n marks, 1 or 0, and zeros into all of
 * `scratch`; both need n items. */
uint32_t gentropi_capture(
    size_t n,
    size_t d,
    bool recursive,
    uint32_t from,
    const uint8_t *flags, size_t flags_len,
    const uint32_t *first, size_t first_len,
    const uint32_t *dependency, size_t dependency_len,
    const uint32_t *next, size_t next_len,
    uint8_t *marks, size_t marks_len,
    uint32_t *scratch, size_t scratch_len);

/* Which of `k` subgroups join which; both tables of bits have four words for each. Writes the first k numbers and sizes, and
 * 4 * k words of bits. */
uint32_t gentropi_merge(
    size_t k,
    size_t entries,
    const uint64_t *sizes, size_t sizes_len,
    const uint64_t *bits, size_t bits_len,
    double threshold,
    uint32_t *final_numbers, size_t final_numbers_len,
    uint64_t *final_sizes, size_t final_sizes_len,
    uint64_t *final_bits, size_t final_bits_len);

/* The chunk list of a whole build: `n` modules, `g` groups, `e` entries, `k` names, `d` dependency records. `answers` has group by
 * group one answer for each module. Writes the first n items of `chunk_of` and `next_of` (a module's chunk, and the module after
 * it in its chunk, each plus 1, or 0), one item of the next six areas for each new chunk (`first_of`: its first module plus 1;
 * `bits_of`: four words; `mark_of`: enum gentropi_marks), zeros into all of `scratch`, and how many new chunks there are into `count`.
 * The first six areas and `mark_of` need n items each, `bits_of` 4 * n, `scratch` as many as gentropi_chunks_scratch_words says. */
uint32_t gentropi_chunks(
    size_t n,
    size_t g,
    size_t e,
    size_t k,
    size_t d,
    const uint8_t *flags, size_t flags_len,
    const uint64_t *sizes, size_t sizes_len,
    const uint32_t *orders, size_t orders_len,
    const uint32_t *shares, size_t shares_len,
    const uint64_t *tags, size_t tags_len,
    const uint64_t *bits, size_t bits_len,
    const uint8_t *bytes, size_t bytes_len,
    const uint32_t *offsets, size_t offsets_len,
    const uint32_t *first, size_t first_len,
    const uint32_t *dependency, size_t dependency_len,
    const uint32_t *next, size_t next_len,
    uint8_t given,
    double min_size,
    double max_size,
    double min_module_size,
    double max_module_size,
    uint32_t min_share_count,
    const uint8_t *group_given, size_t group_given_len,
    const double *group_min_size, size_t group_min_size_len,
    const double *group_max_size, size_t group_max_size_len,
    const double *group_min_module_size, size_t group_min_module_size_len,
    const double *group_max_module_size, size_t group_max_module_size_len,
    const uint32_t *group_min_share_count, size_t group_min_share_count_len,
    const uint64_t *group_tags, size_t group_tags_len,
    const uint32_t *group_priority, size_t group_priority_len,
    const double *group_threshold, size_t group_threshold_len,
    const uint32_t *answers, size_t answers_len,
    size_t on_entry,
    uint32_t *chunk_of, size_t chunk_of_len,
    uint32_t *next_of, size_t next_of_len,
    uint32_t *first_of, size_t first_of_len,
    uint32_t *group_of, size_t group_of_len,
    uint32_t *name_of, size_t name_of_len,
    double *size_of, size_t size_of_len,
    uint64_t *bits_of, size_t bits_of_len,
    gentropi_mark *mark_of, size_t mark_of_len,
    uint32_t *scratch, size_t scratch_len,
    size_t *count);

/* What a chunk is called. Group name i is group_names[group_offsets[i]..group_offsets[i + 1]], for k names that strictly ascend in byte
 * order; entry names likewise, for e entries. `number` is the chunk's name, `word0` to `word3` are its entry bits, `hash` has eight
 * bytes below 128. An entries-aware chunk has the group's name, then "~" and the entry's name for each of its entries that has one; above
 * 100 bytes that is cut and ends with "~" and the hash. Another chunk has the group's name at any length. Writes the name to the front of
 * `name`, which needs as many bytes as gentropi_name_bytes says, and how many bytes it has into `length`. */
uint32_t gentropi_name(
    size_t k,
    size_t e,
    const uint8_t *group_names, size_t group_names_len,
    const uint32_t *group_offsets, size_t group_offsets_len,
    const uint8_t *entry_names, size_t entry_names_len,
    const uint32_t *entry_offsets, size_t entry_offsets_len,
    uint32_t number,
    bool entries_aware,
    uint64_t word0,
    uint64_t word1,
    uint64_t word2,
    uint64_t word3,
    const uint8_t *hash, size_t hash_len,
    uint8_t *name, size_t name_len,
    size_t *length);

/* How many words of scratch gentropi_capture needs. */
static inline size_t gentropi_capture_scratch_words(size_t n) {
    return n;
}

/* How many words of bits gentropi_merge needs for k subgroups, and gentropi_chunks for n modules. */
static inline size_t gentropi_bits_words(size_t items) {
    return GENTROPI_BITS_WORDS * items;
}

/* How many bytes gentropi_name needs for a name, by the length of the group's name. */
static inline size_t gentropi_name_bytes(size_t group_name) {
    return group_name > GENTROPI_CHUNK_NAME_BYTES ? group_name : GENTROPI_CHUNK_NAME_BYTES;
}

/* How many names a group gives: the answers of 2 and more that differ. Answers above every name are not counted: they are refused
 * with 10, which comes before 13. */
static inline size_t gentropi_names_given(const uint32_t *answers, size_t n) {
    uint8_t seen[8192];
    size_t names = 0;
    memset(seen, 0, sizeof seen);
    for (size_t module = 0; module < n; module++) {
        uint32_t name = answers[module] - GENTROPI_FIRST_NAME;
        if (answers[module] < GENTROPI_FIRST_NAME || name >= 8 * sizeof seen) continue;
        uint8_t bit = (uint8_t)(1u << (name % 8));
        names += (seen[name / 8] & bit) == 0;
        seen[name / 8] |= bit;
    }
    return names;
}

/* How many words of scratch gentropi_chunks needs: 32 for each module, and one more for each pair of a group and a name that an
 * answer gives. `answers` has g times n items. */
static inline size_t gentropi_chunks_scratch_words(const uint32_t *answers, size_t n, size_t g) {
    size_t pairs = 0;
    for (size_t group = 0; group < g; group++) pairs += gentropi_names_given(answers + group * n, n);
    return (pairs + 32) * n;
}

#ifdef __cplusplus
}
#endif

#endif
