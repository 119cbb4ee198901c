/* What the seeded faults about lines that a table has twice need (the part faults): whether there are such lines, and a table and a file without them. */
#include "held.h"

/* Whether this line stands in the table before it, too. */
static int repeated(const struct held *table, unsigned line)
{
    for (unsigned k = 0; k < line; k++)
        if (!memcmp(table->lines[k], table->lines[line], PLACES)) return 1;
    return 0;
}

/* Whether the table has some line twice. */
int repeats(const uint8_t *held)
{
    const struct held *table = (const struct held *)held;
    for (unsigned k = 0; k < count_of(table); k++)
        if (repeated(table, k)) return 1;
    return 0;
}

/* Takes every repeat out of the table. */
void drop_repeats(uint8_t *held)
{
    struct held *table = (struct held *)held;
    unsigned kept = 0, count = count_of(table);
    for (unsigned k = 0; k < count; k++) {
        memmove(table->lines[kept], table->lines[k], PLACES);
        kept += !repeated(table, kept);
    }
    memset(table->lines[kept], 0, (size_t)(LINES - kept) * PLACES);
    put_count(table, kept);
}

/* The length of the record that begins here, its byte 10 included. */
static size_t record(const uint8_t *at) { return (size_t)((const uint8_t *)memchr(at, 10, 64) - at) + 1; }

/* Takes every repeat of a line out of the file, whose first record stays as it is; returns the length of what is left. */
size_t without_repeats(uint8_t *file, size_t length)
{
    size_t kept = 0;
    for (size_t at = 0, next; at < length; at = next) {
        size_t size = record(file + at), before = 0;
        next = at + size;
        memmove(file + kept, file + at, size);
        while (before < kept && (file[kept] != 'L' || record(file + before) != size || memcmp(file + before, file + kept, size)))
            before += record(file + before);
        kept += before == kept ? size : 0;
    }
    return kept;
}
