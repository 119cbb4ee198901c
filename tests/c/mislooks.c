/* A look at a held table in which one rule may be wrong, which tests/parts/faults.py puts into the library: `wrong` names the rule. */
#include "held.h"

void mislook(const char *wrong, const uint8_t *held, uint8_t *flags)
{
    static struct held before; /* the table that was looked at before */
    static uint8_t shown[STATES];
    const struct held *table = (const struct held *)held;
    uint8_t reached[STATES], finishing[STATES];
    reach(table, reached, finishing);
    for (int i = 0; i < STATES; i++)
        flags[i] = !strcmp(wrong, "the start states")         ? table->start[i] == 1
                   : !strcmp(wrong, "the reached states")     ? reached[i] == 1
                   : !strcmp(wrong, "the states that finish") ? finishing[i] == 1
                   : !strcmp(wrong, "the set is worked out")  ? reached[i] && finishing[i]
                                                              : table->useful[i] == 1;
    /* the states are those of the table before: so is the set */
    if (!strcmp(wrong, "the set before the edit") && !memcmp(&before, table, offsetof(struct held, useful)))
        memcpy(flags, shown, STATES);
    memcpy(&before, table, sizeof before);
    memcpy(shown, flags, STATES);
}
