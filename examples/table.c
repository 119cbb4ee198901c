/*
 * A unit in small: loads a table file once and prints the library's verdict on it; then does one job after another on the table that it holds.
 *
 *     ./make-library
 *     gcc -std=c99 -Wall -Wextra -Iinclude -o target/example-c examples/table.c target/lib/libyotselina.a
 *     target/example-c tables/single 1 2
 *     target/example-c tables/single 1 2 , append 0 3 7 5 6 , 7 , look , remove 4 , write
 *
 * Jobs are parted by commas: the codes of an input word, which is translated; append FROM TO INPUT OUTPUT ..; remove NUMBER; look; write.
 * Exit status: 0 done, 1 the table is split, 2 refused or not read.
 */
#include <stdio.h>
#include <stdlib.h>
#include <string.h>

#include "yotselina.h"

/* All that is lent. It stands here and not on the stack; a unit would have one such block for each thread that calls. */
static uint8_t table[YOTSELINA_TABLE];
static uint8_t file[YOTSELINA_FILE + 1];
static uint8_t word[YOTSELINA_WITNESS];
static uint16_t path_a[YOTSELINA_WITNESS], path_b[YOTSELINA_WITNESS];
static uint8_t output_x[YOTSELINA_WITNESS_OUTPUT], output_y[YOTSELINA_WITNESS_OUTPUT];
static uint8_t output[YOTSELINA_OUTPUT];

/* Returns 2, with a complaint, where a call is refused. */
static int done(const char *what, uint32_t returned)
{
    if (returned == 0)
        return 0;
    fprintf(stderr, "%s: refused with number %u, record %u\n    %s\n", what, (unsigned)YOTSELINA_NUMBER(returned),
            (unsigned)YOTSELINA_RECORD(returned), yotselina_text(returned));
    return 2;
}

static void print_codes(const char *what, const uint8_t *codes, uint64_t count)
{
    printf("%s", what);
    for (uint64_t i = 0; i < count; i++)
        printf(" %u", (unsigned)codes[i]);
    printf("\n");
}

static void print_lines(const char *what, const uint16_t *lines, uint64_t count)
{
    printf("%s", what);
    for (uint64_t i = 0; i < count; i++)
        printf(" %u", (unsigned)lines[i]);
    printf("\n");
}

/* Makes the held table of a file, of which one byte more than the longest has is looked at, so that the library refuses a longer one. */
static int load(const char *name)
{
    FILE *stream = fopen(name, "rb");
    size_t length = stream == NULL ? 0 : fread(file, 1, sizeof file, stream);
    if (stream == NULL || ferror(stream)) {
        perror(name);
        return 2;
    }
    fclose(stream);
    return done(name, yotselina_read(file, length, table, sizeof table));
}

/* Prints the verdict. Returns 0 for single, 1 for split, 2 for a refusal. */
static int verdict(void)
{
    uint64_t answer[YOTSELINA_VERDICT_ANSWER];
    uint32_t returned = yotselina_verdict(table, sizeof table, word, YOTSELINA_WITNESS, path_a, YOTSELINA_WITNESS, path_b, YOTSELINA_WITNESS,
                                          output_x, YOTSELINA_WITNESS_OUTPUT, output_y, YOTSELINA_WITNESS_OUTPUT,
                                          answer, YOTSELINA_VERDICT_ANSWER);
    if (returned != 0)
        return done("verdict", returned);
    if (answer[YOTSELINA_ANSWER_SPLIT] == YOTSELINA_SINGLE) {
        printf("single: every input word has one output at most (u = %lu)\n", (unsigned long)answer[YOTSELINA_ANSWER_USEFUL]);
        return 0;
    }
    printf("split: two accepting paths read one input word and write different outputs (u = %lu)\n",
           (unsigned long)answer[YOTSELINA_ANSWER_USEFUL]);
    print_codes("word:", word, answer[YOTSELINA_ANSWER_WORD]);
    print_lines("path A, lines:", path_a, answer[YOTSELINA_ANSWER_PATH_A]);
    print_codes("  writes:", output_x, answer[YOTSELINA_ANSWER_OUTPUT_X]);
    print_lines("path B, lines:", path_b, answer[YOTSELINA_ANSWER_PATH_B]);
    print_codes("  writes:", output_y, answer[YOTSELINA_ANSWER_OUTPUT_Y]);
    printf("codes in common at the beginning: %lu\n", (unsigned long)answer[YOTSELINA_ANSWER_SHARED]);
    return 1;
}

/* The arguments as bytes, as many as there is room for; how many, or -1 with a complaint. */
static int bytes_of(int count, char **arguments, uint8_t *bytes, int room)
{
    int i;
    for (i = 0; i < count && i < room; i++) {
        char *end;
        unsigned long number = strtoul(arguments[i], &end, 10);
        if (arguments[i][strspn(arguments[i], "0123456789")] != '\0' || end == arguments[i] || number > 255) {
            fprintf(stderr, "%s is no code\n", arguments[i]);
            return -1;
        }
        bytes[i] = (uint8_t)number;
    }
    return i;
}

/* Translates the input word whose codes are the arguments: what a unit does with each cue. One code more than the longest word has is looked at. */
static int translate(int count, char **codes)
{
    uint8_t input[YOTSELINA_WORD + 1];
    uint64_t answer[YOTSELINA_TRANSLATE_ANSWER];
    uint32_t returned;
    int length = bytes_of(count, codes, input, sizeof input);
    if (length < 0)
        return 2;
    returned = yotselina_translate(table, sizeof table, input, (size_t)length, output, sizeof output, answer, YOTSELINA_TRANSLATE_ANSWER);
    if (returned == 0)
        print_codes("output:", output, answer[YOTSELINA_ANSWER_CODES]);
    return done("translate", returned);
}

/* Appends a line by its states, its input and its outputs, where the table is held. */
static int append(int count, char **numbers)
{
    uint8_t bytes[YOTSELINA_LINE - 1], line[YOTSELINA_LINE] = {0};
    int found = bytes_of(count, numbers, bytes, sizeof bytes);
    if (found < 3 || found < count) {
        fprintf(stderr, "append takes FROM TO INPUT and up to eight outputs\n");
        return 2;
    }
    memcpy(line, bytes, 3);
    line[3] = (uint8_t)(found - 3);
    memcpy(line + 4, bytes + 3, (size_t)found - 3);
    return done("append", yotselina_append(table, sizeof table, line, sizeof line));
}

/* Removes the line of a number, where the table is held. */
static int remove_line(int count, char **numbers)
{
    uint8_t number;
    if (count != 1 || bytes_of(count, numbers, &number, 1) != 1) {
        fprintf(stderr, "remove takes the NUMBER of a line\n");
        return 2;
    }
    return done("remove", yotselina_remove(table, sizeof table, number));
}

/* Prints the useful states, as the table keeps them. */
static int look(void)
{
    uint8_t flags[YOTSELINA_STATES];
    uint32_t returned = yotselina_look(table, sizeof table, flags, sizeof flags);
    if (returned != 0)
        return done("look", returned);
    printf("useful states:");
    for (int state = 0; state < YOTSELINA_STATES; state++)
        if (flags[state] == 1)
            printf(" %d", state);
    printf("\n");
    return 0;
}

/* Prints the table's file. */
static int write_file(void)
{
    uint64_t answer[YOTSELINA_WRITE_ANSWER];
    uint32_t returned = yotselina_write(table, sizeof table, file, sizeof file, answer, YOTSELINA_WRITE_ANSWER);
    if (returned == 0)
        fwrite(file, 1, (size_t)answer[YOTSELINA_ANSWER_BYTES], stdout);
    return done("write", returned);
}

/* Does one job. Returns 0, or 2 with a complaint. */
static int job(int count, char **arguments)
{
    if (strcmp(arguments[0], "append") == 0)
        return append(count - 1, arguments + 1);
    if (strcmp(arguments[0], "remove") == 0)
        return remove_line(count - 1, arguments + 1);
    if (strcmp(arguments[0], "look") == 0)
        return look();
    if (strcmp(arguments[0], "write") == 0)
        return write_file();
    return translate(count, arguments);
}

int main(int count, char **arguments)
{
    int said;
    if (count < 2) {
        fprintf(stderr, "usage: %s FILE [JOB [, JOB] ..]\n", arguments[0]);
        return 2;
    }
    if (yotselina_version() >> 16 != YOTSELINA_VERSION >> 16 || yotselina_version() < YOTSELINA_VERSION) {
        fprintf(stderr, "the library is not of the header's version\n");
        return 2;
    }
    if (load(arguments[1]) != 0)
        return 2;
    said = verdict();
    for (int first = 2, last; said != 2 && first < count; first = last + 1) {
        last = first;
        while (last < count && strcmp(arguments[last], ",") != 0)
            last++;
        if (last > first && job(last - first, arguments + first) != 0)
            said = 2;
    }
    if (fflush(stdout) != 0 || ferror(stdout)) {
        perror("standard output");
        return 2;
    }
    return said;
}
