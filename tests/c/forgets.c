/*
 * A wrong word test, which tests/parts/faults.py puts into the library: it keeps where a search has been by (codes read, state) alone, so that of several
 * ways to a state that have written different lengths it follows only the first. The table must be one that the library takes.
 */
#include "held.h"

int forgets(const uint8_t *held, const uint8_t *input, size_t input_length, const uint8_t *output, size_t output_length)
{
    const struct held *table = (const struct held *)held;
    unsigned matched[64][STATES] = {{0}}; /* 1 + how many codes the first way to a place has matched; 0 where none leads */
    for (int state = 0; state < STATES; state++)
        matched[0][state] = table->start[state];
    for (int more = 1; more;) {
        more = 0;
        for (unsigned k = 0; k < count_of(table); k++) {
            const uint8_t *line = table->lines[k], from = line[0], to = line[1], code = line[2], count = line[3];
            for (size_t read = 0; read <= input_length; read++) {
                unsigned before = matched[read][from];
                size_t after = read + (code != 0);
                if (before && (!code || (read < input_length && input[read] == code)) && before - 1 + count <= output_length
                    && !memcmp(output + before - 1, line + OUTPUTS, count) && !matched[after][to]) {
                    matched[after][to] = before + count;
                    more = 1;
                }
            }
        }
    }
    for (int state = 0; state < STATES; state++)
        if (table->end[state] && matched[input_length][state] == output_length + 1)
            return 1;
    return 0;
}
