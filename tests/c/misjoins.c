/*
 * A plain join of two held tables in which one rule may be wrong, which tests/parts/faults.py puts into the library: `wrong` names the rule. Both tables
 * must be such that the library takes them.
 */
#include "held.h"

#define PAIRS (STATES * STATES)

struct line {
    uint8_t from, to, input, count, output[8];
};
struct table {
    unsigned states, count;
    uint8_t start[STATES], end[STATES];
    struct line lines[LINES];
};
/* What is joined, and with which rule wrong. */
struct series {
    struct table first, second;
    const char *wrong;
};

static int is(const struct series *s, const char *rule) { return !strcmp(s->wrong, rule); }

static struct table read_table(const uint8_t *held)
{
    const struct held *given = (const struct held *)held;
    struct table table = {given->states, count_of(given), {0}, {0}, {{0}}};
    memcpy(table.start, given->start, STATES);
    memcpy(table.end, given->end, STATES);
    memcpy(table.lines, given->lines, sizeof given->lines);
    return table;
}

/* Every line leads from the state that it entered, and the start states are the final ones. */
static struct table turned(struct table table)
{
    for (unsigned i = 0; i < STATES; i++) {
        uint8_t start = table.start[i];
        table.start[i] = table.end[i], table.end[i] = start;
    }
    for (unsigned k = 0; k < table.count; k++) {
        uint8_t from = table.lines[k].from;
        table.lines[k].from = table.lines[k].to, table.lines[k].to = from;
    }
    return table;
}

/* The pair that a step from this pair enters, or -1 where these lines are no step. 0 for no line, else the line's number and one. */
static int step(const struct series *s, unsigned pair, unsigned a, unsigned b)
{
    unsigned p = pair / STATES, q = pair % STATES;
    const struct line *line = a ? &s->first.lines[a - 1] : NULL, *other = b ? &s->second.lines[b - 1] : NULL;
    if ((line && line->from != p) || (other && other->from != q) || (!line && !other))
        return -1;
    if (line && other) {
        int silent = is(s, "silent lines step together") && !line->count && !other->input;
        int ignored = is(s, "the code between is ignored") && line->count == 1 && other->input;
        if (!silent && !ignored && (line->count != 1 || line->output[0] != other->input))
            return -1;
    } else if (line ? line->count != 0 : other->input != 0) {
        return -1;
    }
    if ((!other && is(s, "no step alone of the first")) || (!line && is(s, "no step alone of the second")))
        return -1;
    return (line ? line->to : p) * STATES + (other ? other->to : q);
}

/* Whether a pair is one of two start states (or final states), by what is said of each state. */
static int both(const struct series *s, const uint8_t *one, const uint8_t *other, unsigned pair)
{
    int p = one[pair / STATES], q = other[pair % STATES];
    return is(s, "one start or final state is enough") ? p || q : p && q;
}

/* Marks the pairs that steps reach from two start states. */
static void search(const struct series *s, uint8_t *found)
{
    uint16_t waiting[PAIRS];
    unsigned count = 0;
    memset(found, 0, PAIRS);
    for (unsigned pair = 0; pair < PAIRS; pair++)
        if (both(s, s->first.start, s->second.start, pair) && !(count && is(s, "one pair of start states")))
            found[pair] = 1, waiting[count++] = pair;
    for (unsigned next = 0; next < count; next++)
        for (unsigned a = 0; a <= s->first.count; a++) {
            if (a && s->first.lines[a - 1].from != waiting[next] / STATES)
                continue;
            for (unsigned b = 0; b <= s->second.count; b++) {
                int entered = step(s, waiting[next], a, b);
                if (entered >= 0 && !found[entered])
                    found[entered] = 1, waiting[count++] = entered;
            }
        }
}

/* The joined pairs in their order; returns how many. */
static unsigned pairs_of(const struct series *s, uint16_t *order)
{
    struct series back = {turned(s->first), turned(s->second), is(s, "one pair of start states") ? "" : s->wrong};
    uint8_t reached[PAIRS], finishing[PAIRS];
    unsigned count = 0;
    search(s, reached);
    search(&back, finishing);
    for (unsigned i = 0; i < PAIRS; i++) {
        unsigned pair = is(s, "numbered by the second state") ? i % STATES * STATES + i / STATES : i;
        if ((reached[pair] || is(s, "pairs that are not reached")) && (finishing[pair] || is(s, "pairs that do not finish")))
            order[count++] = pair;
    }
    if (is(s, "reached pairs are counted")) {
        unsigned all = 0;
        for (unsigned pair = 0; pair < PAIRS; pair++)
            all += reached[pair];
        return all > STATES ? all : count;
    }
    return count;
}

/* The joined table as it is made, how many lines it would have, and where the pairs stand in their order. */
struct made {
    struct held table;
    size_t lines;
    uint16_t order[PAIRS];
    unsigned pairs;
};

static unsigned number_of(const struct made *made, unsigned pair)
{
    unsigned number = 0;
    while (number < made->pairs && made->order[number] != pair)
        number++;
    return number;
}

/* The line of one step from the pair with this number, if it is one between joined pairs. */
static void put_step(struct series *s, struct made *made, unsigned from, unsigned a, unsigned b)
{
    int entered = step(s, made->order[from], a, b);
    unsigned to = entered < 0 ? made->pairs : number_of(made, entered);
    const struct line *other = b ? &s->second.lines[b - 1] : NULL;
    struct line line = {(uint8_t)from, (uint8_t)to, a ? s->first.lines[a - 1].input : 0, 0, {0}};
    if (to == made->pairs || (to == from && is(s, "no steps to the same pair")))
        return;
    if (other && is(s, "a line reads what the second reads"))
        line.input = other->input;
    if (other)
        line.count = other->count, memcpy(line.output, other->output, sizeof line.output);
    if (made->lines < LINES)
        memcpy(made->table.lines[made->lines], &line, sizeof line);
    made->lines++;
}

/* All lines, in their order. */
static void put_lines(struct series *s, struct made *made)
{
    unsigned k = s->first.count + 1, m = s->second.count + 1;
    for (unsigned from = 0; from < made->pairs; from++)
        for (unsigned i = 0; i < k * m; i++) {
            unsigned a = i / m, b = i % m;
            if (is(s, "the second's line first"))
                a = i % k, b = i / k;
            if (is(s, "no line comes last"))
                a = (a + 1) % k, b = (b + 1) % m;
            put_step(s, made, from, a, b);
        }
}

/* A flag for each pair of two such states. */
static void put_states(const struct series *s, const struct made *made, uint8_t *flags, const uint8_t *one, const uint8_t *other)
{
    for (unsigned state = 0; state < made->pairs && state < STATES; state++)
        flags[state] = both(s, one, other, made->order[state]);
}

static int long_line(const struct series *s, const struct made *made)
{
    for (unsigned k = 0; k < s->first.count; k++) {
        const struct line *line = &s->first.lines[k];
        int used = !is(s, "15 for joined states only");
        for (unsigned i = 0; i < made->pairs; i++)
            used |= made->order[i] / STATES == line->from;
        if (line->count > 1 && used)
            return 1;
    }
    return 0;
}

static void put_table(struct series *s, struct made *made)
{
    made->table.states = (uint8_t)(made->pairs ? made->pairs : !is(s, "no state without a joined pair"));
    put_states(s, made, made->table.start, s->first.start, s->second.start);
    put_states(s, made, made->table.end, s->first.end, s->second.end);
    put_lines(s, made);
    if (is(s, "16 bits count the lines"))
        made->lines = (uint16_t)made->lines;
    put_count(&made->table, (unsigned)made->lines);
    if (!is(s, "no state is said to be useful"))
        work_out(&made->table);
}

uint32_t misjoin(const char *wrong, const uint8_t *first, const uint8_t *second, uint8_t *result)
{
    struct series s = {read_table(first), read_table(second), wrong};
    struct made made = {{0, {0}, {0}, {0}, {0}, {{0}}}, 0, {0}, 0};
    unsigned most_pairs = is(&s, "33 pairs are taken") ? 33 : is(&s, "32 pairs are refused") ? 31 : 32;
    size_t most_lines = is(&s, "257 lines are taken") ? 257 : is(&s, "256 lines are refused") ? 255 : 256;
    made.pairs = pairs_of(&s, made.order);
    int is_long = long_line(&s, &made), late = is(&s, "15 after 16 and 17");
    if (is_long && !late)
        return 15;
    if (made.pairs > most_pairs && !is(&s, "17 before 16"))
        return 16;
    if (made.pairs <= 33 || is(&s, "17 before 16"))
        put_table(&s, &made);
    if (made.lines > most_lines)
        return 17;
    if (made.pairs > most_pairs)
        return 16;
    if (is_long)
        return 15;
    memcpy(result, &made.table, sizeof made.table);
    return 0;
}
