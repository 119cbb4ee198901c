/*
 * Plain edits of a held table in which one rule may be wrong, which tests/parts/faults.py puts into the library: `wrong` names the rule. The table must be
 * one that the library takes.
 */
#include "held.h"

static int is(const char *wrong, const char *rule) { return !strcmp(wrong, rule); }

static int same(const uint8_t *line, const uint8_t *other) { return !memcmp(line, other, PLACES); }

static void insert(struct held *table, unsigned place, const uint8_t *line)
{
    unsigned count = count_of(table);
    memmove(table->lines[place + 1], table->lines[place], (size_t)(count - place) * PLACES);
    memcpy(table->lines[place], line, PLACES);
    put_count(table, count + 1);
}

/* Takes a line out; what moves down leaves zeros behind. */
static void drop(const char *wrong, struct held *table, unsigned place)
{
    unsigned last = count_of(table) - 1;
    memmove(table->lines[place], table->lines[place + 1], (size_t)(last - place) * PLACES);
    if (!is(wrong, "the last line is left behind the count"))
        memset(table->lines[last], 0, PLACES);
    put_count(table, last);
}

/* What is wrong with the other parts of an edited table. */
static void finish(const char *wrong, struct held *table)
{
    if (is(wrong, "the start states are lost"))
        memset(table->start, 0, STATES);
    if (is(wrong, "the final states are lost"))
        memset(table->end, 0, STATES);
    if (!is(wrong, "the useful states stay"))
        work_out(table);
    if (is(wrong, "the bytes of the count are exchanged"))
        put_count(table, table->count[1] + 256u * table->count[0]);
}

static int good_line(const char *wrong, const struct held *table, const uint8_t *line)
{
    unsigned states = table->states, most = is(wrong, "input 251 is taken") ? 251 : 250, count = line[3];
    int good = line[0] < states + is(wrong, "state n is left") && line[1] < states + is(wrong, "state n is entered") && line[2] <= most && count <= 8;
    for (unsigned i = 0; good && i < count; i++)
        good = (line[OUTPUTS + i] || is(wrong, "output 0 is taken")) && line[OUTPUTS + i] <= 250 + is(wrong, "output 251 is taken");
    for (unsigned i = OUTPUTS + count; good && i < PLACES && !is(wrong, "anything may stand beyond the count"); i++)
        good = !line[i] || (i == PLACES - 1 && is(wrong, "anything may stand in the last place"));
    return good && !(line[PLACES] && is(wrong, "a thirteenth place is looked at"));
}

uint32_t misappend(const char *wrong, uint8_t *held, const uint8_t *line, size_t line_length)
{
    struct held *table = (struct held *)held;
    unsigned count = count_of(table), most = is(wrong, "256 lines are refused") ? 255 : is(wrong, "257 lines are taken") ? 257 : 256;
    uint8_t places[PLACES + 1] = {0};
    if (line_length + is(wrong, "eleven places are taken") < PLACES)
        return 100;
    memcpy(places, line, line_length < sizeof places ? line_length : sizeof places);
    if (is(wrong, "a count of 9 is taken for 8"))
        places[3] -= places[3] == 9;
    if (count >= most && is(wrong, "17 before 19"))
        return 17;
    if (!good_line(wrong, table, places)) {
        if (is(wrong, "a refused line is left behind the count") && count < LINES)
            memcpy(table->lines[count], places, PLACES);
        return 19;
    }
    if (count >= most)
        return 17;
    for (unsigned k = 0; k < count && is(wrong, "a line that is there is not appended"); k++)
        if (same(table->lines[k], places))
            return 0;
    if (count < LINES)
        insert(table, is(wrong, "before the last") ? count - (count > 0) : is(wrong, "as the first") ? 0 : count, places);
    if (is(wrong, "the count is not raised"))
        put_count(table, count);
    finish(wrong, table);
    return 0;
}

uint32_t misremove(const char *wrong, uint8_t *held, size_t number)
{
    struct held *table = (struct held *)held;
    unsigned count = count_of(table);
    if (is(wrong, "the number is cut to a byte"))
        number = (uint8_t)number;
    if (is(wrong, "the number is cut to 32 bits"))
        number = (uint32_t)number;
    if (number == count && count && is(wrong, "the count removes the last line"))
        number--;
    if (number >= count || (number == count - 1 && is(wrong, "the last line cannot be removed")))
        return 18;
    number += is(wrong, "the line after is removed") && number < count - 1;
    number -= is(wrong, "the line before is removed") && number > 0;
    uint8_t removed[PLACES], last[PLACES];
    memcpy(removed, table->lines[number], PLACES);
    memcpy(last, table->lines[count - 1], PLACES);
    if (is(wrong, "the last line takes its place"))
        memcpy(table->lines[number], last, PLACES), number = count - 1;
    drop(wrong, table, (unsigned)number);
    if (is(wrong, "the last line stays"))
        insert(table, count - 1, last);
    for (unsigned k = count_of(table); k-- > 0 && is(wrong, "its repeats are removed");)
        if (same(table->lines[k], removed))
            drop(wrong, table, k);
    if (is(wrong, "the count is not lowered"))
        put_count(table, count);
    finish(wrong, table);
    return 0;
}
