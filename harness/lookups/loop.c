/*
 * What a lookup is timed beside: the verdict of the first entry with the record, the rule, a verdict of 1 or 2 and, for a
 * trainer, the mark, else 0. It checks nothing of what it is given. build.rs compiles it with -O3, as the proved library
 * is; with -O2 gcc 12 makes the same of it: memcmp becomes loads of eight bytes, without a call.
 */
#include <stdbool.h>
#include <stdint.h>
#include <string.h>

uint32_t plain_lookup(bool trainer, const uint8_t *book, uint64_t count, const uint8_t *record, uint64_t rule) {
    const uint8_t mark = trainer;
    for (uint64_t i = 0; i < count; i++) {
        const uint8_t *entry = book + 22 * i;
        const uint32_t verdict = entry[21] >> 4 & 3;
        if (memcmp(entry, record, 21) == 0 && entry[21] >> 6 == rule && (verdict == 1 || verdict == 2) &&
            (entry[21] & mark) == mark)
            return verdict;
    }
    return 0;
}
