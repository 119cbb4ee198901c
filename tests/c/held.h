/* A held table by its places, as include/yotselina.h has them: for the wrong functions that tests/parts/faults.py puts into the library. */
#include <stddef.h>
#include <stdint.h>
#include <string.h>

#define STATES 32
#define LINES 256
#define PLACES 12
#define OUTPUTS 4 /* the first place of an output */

struct held {
    uint8_t states, start[STATES], end[STATES], useful[STATES], count[2], lines[LINES][PLACES];
};

static inline unsigned count_of(const struct held *table) { return table->count[0] + 256u * table->count[1]; }

static inline void put_count(struct held *table, unsigned count)
{
    table->count[0] = (uint8_t)count;
    table->count[1] = (uint8_t)(count >> 8);
}

/* Adds the states that lines lead to from those that are there; backwards, those from which lines lead to them. */
static inline void close_over(const struct held *table, int backwards, uint8_t *there)
{
    for (int more = 1; more;) {
        more = 0;
        for (unsigned k = 0; k < count_of(table) && k < LINES; k++) {
            uint8_t from = table->lines[k][backwards], to = table->lines[k][!backwards];
            if (from < STATES && to < STATES && there[from] && !there[to])
                more = there[to] = 1;
        }
    }
}

/* The states that are reached from start states, and those from which final states are. */
static inline void reach(const struct held *table, uint8_t *reached, uint8_t *finishing)
{
    memcpy(reached, table->start, STATES);
    memcpy(finishing, table->end, STATES);
    close_over(table, 0, reached);
    close_over(table, 1, finishing);
}

/* Writes the flags of the useful states. */
static inline void work_out(struct held *table)
{
    uint8_t reached[STATES], finishing[STATES];
    reach(table, reached, finishing);
    for (int i = 0; i < STATES; i++)
        table->useful[i] = reached[i] && finishing[i];
}
