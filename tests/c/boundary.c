/*
 * Calls every function of the library as C does, and prints one line for each call; tests/parts/linked.py runs this and compares the lines.
 *
 *     boundary MEMORY FILE TABLE INPUT OUTPUT SECOND LINE NUMBER [..]   files: a table file, a held table, the codes of an input word and of an output
 *                                                                       word, a held table that is joined behind the first, the places of a line that
 *                                                                       is appended, the number in digits of a line that is removed; seven for each
 *                                                                       sample
 *     boundary MEMORY                                                   touches a place beside a list, which must be seen
 *
 * Each list is a piece of memory of its own, of exactly the places that are lent. MEMORY is `plain`: from malloc, with no content, so that valgrind sees a
 * place beside it that is touched, a place that is used before it is written, and one that is said to be written and is not; or `behind`, `before`: it
 * ends where a page begins that nobody may touch, or begins where such a page ends. C and C++ compile it.
 */
#define _DEFAULT_SOURCE
#include "yotselina.h"
#include "yotselina.h" /* including it twice does no harm */

#include <stdio.h>
#include <stdlib.h>
#include <string.h>
#include <sys/mman.h>

#define PAGE ((size_t)4096)
#define TEXTS 130 /* numbers whose texts are printed */

/* --- what is lent */

static char memory_kind; /* the last letter of the first argument: plaiN, behinD, beforE */

/* What is lent at the moment, in the order in which it was. */
static struct {
    void *memory;
    size_t length;
} lent[32];
static int lent_count;

/* Memory for so many places; for none NULL. */
static void *lend(size_t places, size_t width)
{
    size_t bytes = places * width, room = (bytes + PAGE - 1) / PAGE * PAGE;
    uint8_t *memory;
    if (!bytes)
        return NULL;
    if (memory_kind == 'n')
        memory = (uint8_t *)malloc(bytes);
    else
        memory = (uint8_t *)mmap(NULL, room + 2 * PAGE, PROT_NONE, MAP_PRIVATE | MAP_ANONYMOUS, -1, 0);
    if (!memory || memory == MAP_FAILED || (memory_kind != 'n' && mprotect(memory + PAGE, room, PROT_READ | PROT_WRITE)))
        exit(3);
    lent[lent_count].memory = memory;
    lent[lent_count++].length = room + 2 * PAGE;
    return memory_kind == 'n' ? memory : memory + PAGE + (memory_kind == 'd' ? room - bytes : 0);
}

/* Gives all back that was lent after so many. */
static void give_back(int left)
{
    while (lent_count > left) {
        lent_count--;
        if (memory_kind == 'n')
            free(lent[lent_count].memory);
        else
            munmap(lent[lent_count].memory, lent[lent_count].length);
    }
}

struct text {
    uint8_t *bytes;
    size_t length;
};

/* The first places of a list, in memory of their own. */
static struct text copy_of(struct text text, size_t length)
{
    struct text copy = {(uint8_t *)lend(length, 1), length};
    if (length)
        memcpy(copy.bytes, text.bytes, length);
    return copy;
}

static struct text content(const char *path)
{
    struct text text = {NULL, 0};
    FILE *file = fopen(path, "rb");
    if (!file)
        exit(3);
    fseek(file, 0, SEEK_END);
    text.length = (size_t)ftell(file);
    rewind(file);
    text.bytes = (uint8_t *)lend(text.length, 1);
    if (text.length && fread(text.bytes, 1, text.length, file) != text.length)
        exit(3);
    fclose(file);
    return text;
}

/* The number that a text of digits has. */
static size_t number_in(struct text digits)
{
    size_t number = 0;
    for (size_t i = 0; i < digits.length; i++)
        number = 10 * number + (digits.bytes[i] - '0');
    return number;
}

/* What a sample gives. */
struct sample {
    struct text file, table, input, output, second, line;
    size_t number;
};

/* --- what is printed: the call, the places of each list with a content and of each that is written, what it returned, and what was written */

static void print_bytes(const uint8_t *list, uint64_t count)
{
    printf(" |");
    for (uint64_t i = 0; i < count; i++)
        printf(" %u", list[i]);
}

static void print_lines(const uint16_t *list, uint64_t count)
{
    printf(" |");
    for (uint64_t i = 0; i < count; i++)
        printf(" %u", list[i]);
}

static void print_answer(const uint64_t *list, uint64_t count)
{
    printf(" |");
    for (uint64_t i = 0; i < count; i++)
        printf(" %llu", (unsigned long long)list[i]);
}

static void print_returned(uint32_t returned) { printf(": %u %u", YOTSELINA_NUMBER(returned), YOTSELINA_RECORD(returned)); }

/* --- the calls */

static void check(struct text file)
{
    printf("check %zu", file.length);
    print_returned(yotselina_check(file.bytes, file.length));
    printf("\n");
}

static void read_file(struct text file, size_t places)
{
    uint8_t *table = (uint8_t *)lend(places, 1);
    uint32_t returned = yotselina_read(file.bytes, file.length, table, places);
    printf("read %zu %zu", file.length, places);
    print_returned(returned);
    if (!returned)
        print_bytes(table, YOTSELINA_TABLE);
    printf("\n");
}

/* Returns how many places it wrote, 0 for a refusal. */
static size_t write_file(struct text table, size_t places, size_t answers)
{
    uint8_t *out = (uint8_t *)lend(places, 1);
    uint64_t *answer = (uint64_t *)lend(answers, 8);
    uint32_t returned = yotselina_write(table.bytes, table.length, out, places, answer, answers);
    printf("write %zu %zu %zu", table.length, places, answers);
    print_returned(returned);
    if (!returned) {
        print_bytes(out, answer[YOTSELINA_ANSWER_BYTES]);
        print_answer(answer, YOTSELINA_WRITE_ANSWER);
    }
    printf("\n");
    return returned ? 0 : (size_t)answer[YOTSELINA_ANSWER_BYTES];
}

static void verdict(struct text table, const size_t sizes[6])
{
    uint8_t *word = (uint8_t *)lend(sizes[0], 1);
    uint16_t *path_a = (uint16_t *)lend(sizes[1], 2), *path_b = (uint16_t *)lend(sizes[2], 2);
    uint8_t *output_x = (uint8_t *)lend(sizes[3], 1), *output_y = (uint8_t *)lend(sizes[4], 1);
    uint64_t *answer = (uint64_t *)lend(sizes[5], 8);
    uint32_t returned = yotselina_verdict(table.bytes, table.length, word, sizes[0], path_a, sizes[1], path_b, sizes[2],
                                          output_x, sizes[3], output_y, sizes[4], answer, sizes[5]);
    printf("verdict %zu %zu %zu %zu %zu %zu %zu", table.length, sizes[0], sizes[1], sizes[2], sizes[3], sizes[4], sizes[5]);
    print_returned(returned);
    if (!returned) {
        print_bytes(word, answer[YOTSELINA_ANSWER_WORD]);
        print_lines(path_a, answer[YOTSELINA_ANSWER_PATH_A]);
        print_lines(path_b, answer[YOTSELINA_ANSWER_PATH_B]);
        print_bytes(output_x, answer[YOTSELINA_ANSWER_OUTPUT_X]);
        print_bytes(output_y, answer[YOTSELINA_ANSWER_OUTPUT_Y]);
        print_answer(answer, YOTSELINA_VERDICT_ANSWER);
    }
    printf("\n");
}

/* Every list full, then each of them one place short. */
static void verdicts(struct text table)
{
    size_t sizes[6] = {YOTSELINA_WITNESS, YOTSELINA_WITNESS, YOTSELINA_WITNESS, YOTSELINA_WITNESS_OUTPUT, YOTSELINA_WITNESS_OUTPUT,
                       YOTSELINA_VERDICT_ANSWER};
    int before = lent_count;
    verdict(table, sizes);
    for (int i = 0; i < 6; i++) {
        give_back(before);
        sizes[i]--;
        verdict(table, sizes);
        sizes[i]++;
    }
}

/* Returns how many places it wrote, 0 for a refusal. */
static size_t translate(struct text table, struct text word, size_t places, size_t answers)
{
    uint8_t *output = (uint8_t *)lend(places, 1);
    uint64_t *answer = (uint64_t *)lend(answers, 8);
    uint32_t returned = yotselina_translate(table.bytes, table.length, word.bytes, word.length, output, places, answer, answers);
    printf("translate %zu %zu %zu %zu", table.length, word.length, places, answers);
    print_returned(returned);
    if (!returned) {
        print_bytes(output, answer[YOTSELINA_ANSWER_CODES]);
        print_answer(answer, YOTSELINA_TRANSLATE_ANSWER);
    }
    printf("\n");
    return returned ? 0 : (size_t)answer[YOTSELINA_ANSWER_CODES];
}

static void accepts(struct text table, struct text input, struct text output, size_t answers)
{
    uint64_t *answer = (uint64_t *)lend(answers, 8);
    uint32_t returned = yotselina_accepts(table.bytes, table.length, input.bytes, input.length, output.bytes, output.length, answer, answers);
    printf("accepts %zu %zu %zu %zu", table.length, input.length, output.length, answers);
    print_returned(returned);
    if (!returned)
        print_answer(answer, YOTSELINA_ACCEPTS_ANSWER);
    printf("\n");
}

/* What shows the useful states: as they are worked out, as the table keeps them. */
enum shower { USEFUL_STATES, LOOK };
static const char *const showers[] = {"useful_states", "look"};

static void show_states(enum shower shower, struct text table, size_t places)
{
    uint8_t *flags = (uint8_t *)lend(places, 1);
    uint32_t returned = shower == LOOK ? yotselina_look(table.bytes, table.length, flags, places)
                                       : yotselina_useful_states(table.bytes, table.length, flags, places);
    printf("%s %zu %zu", showers[shower], table.length, places);
    print_returned(returned);
    if (!returned)
        print_bytes(flags, YOTSELINA_STATES);
    printf("\n");
}

static void useful_pairs(struct text table, size_t places, size_t answers)
{
    uint8_t *flags = (uint8_t *)lend(places, 1);
    uint64_t *answer = (uint64_t *)lend(answers, 8);
    uint32_t returned = yotselina_useful_pairs(table.bytes, table.length, flags, places, answer, answers);
    printf("useful_pairs %zu %zu %zu", table.length, places, answers);
    print_returned(returned);
    if (!returned) {
        print_bytes(flags, YOTSELINA_PAIRS);
        print_answer(answer, YOTSELINA_PAIRS_ANSWER);
    }
    printf("\n");
}

/* An edit of a copy of the table, which is printed whole also where it is refused. */
static void append(struct text table, struct text line)
{
    struct text edited = copy_of(table, table.length);
    uint32_t returned = yotselina_append(edited.bytes, edited.length, line.bytes, line.length);
    printf("append %zu %zu", edited.length, line.length);
    print_returned(returned);
    print_bytes(edited.bytes, edited.length);
    printf("\n");
}

static void remove_line(struct text table, size_t number)
{
    struct text edited = copy_of(table, table.length);
    uint32_t returned = yotselina_remove(edited.bytes, edited.length, number);
    printf("remove %zu", edited.length);
    print_returned(returned);
    print_bytes(edited.bytes, edited.length);
    printf("\n");
}

/* `way` is what stands behind the name of the call: how the tables of the sample are joined. */
static void join(const char *way, struct text first, struct text second, size_t places)
{
    uint8_t *result = (uint8_t *)lend(places, 1);
    uint32_t returned = yotselina_join(first.bytes, first.length, second.bytes, second.length, result, places);
    printf("join%s %zu %zu %zu", way, first.length, second.length, places);
    print_returned(returned);
    if (!returned)
        print_bytes(result, YOTSELINA_TABLE);
    printf("\n");
}

static void difference(struct text x, struct text y, size_t answers)
{
    uint64_t *answer = (uint64_t *)lend(answers, 8);
    uint32_t returned = yotselina_difference(x.bytes, x.length, y.bytes, y.length, answer, answers);
    printf("difference %zu %zu %zu", x.length, y.length, answers);
    print_returned(returned);
    if (!returned)
        print_answer(answer, YOTSELINA_DIFFERENCE_ANSWER);
    printf("\n");
}

/* Every call on a table: with enough places, exactly enough, one less, and one less for the answer. What is lent for a call is given back after it. */
static void all_calls(const struct sample *given, struct text table)
{
    struct text word = given->input;
    size_t written;
    int before = lent_count;
    written = write_file(table, YOTSELINA_FILE, YOTSELINA_WRITE_ANSWER), give_back(before);
    write_file(table, written, YOTSELINA_WRITE_ANSWER), give_back(before);
    write_file(table, written - (written > 0), YOTSELINA_WRITE_ANSWER), give_back(before);
    write_file(table, YOTSELINA_FILE, YOTSELINA_WRITE_ANSWER - 1), give_back(before);
    verdicts(table), give_back(before);
    written = translate(table, word, YOTSELINA_OUTPUT, YOTSELINA_TRANSLATE_ANSWER), give_back(before);
    translate(table, word, written, YOTSELINA_TRANSLATE_ANSWER), give_back(before);
    translate(table, word, written - (written > 0), YOTSELINA_TRANSLATE_ANSWER), give_back(before);
    translate(table, word, YOTSELINA_OUTPUT, YOTSELINA_TRANSLATE_ANSWER - 1), give_back(before);
    accepts(table, word, given->output, YOTSELINA_ACCEPTS_ANSWER), give_back(before);
    accepts(table, word, given->output, YOTSELINA_ACCEPTS_ANSWER - 1), give_back(before);
    show_states(USEFUL_STATES, table, YOTSELINA_STATES), give_back(before);
    show_states(USEFUL_STATES, table, YOTSELINA_STATES - 1), give_back(before);
    show_states(LOOK, table, YOTSELINA_STATES), give_back(before);
    show_states(LOOK, table, YOTSELINA_STATES - 1), give_back(before);
    useful_pairs(table, YOTSELINA_PAIRS, YOTSELINA_PAIRS_ANSWER), give_back(before);
    useful_pairs(table, YOTSELINA_PAIRS - 1, YOTSELINA_PAIRS_ANSWER), give_back(before);
    useful_pairs(table, YOTSELINA_PAIRS, YOTSELINA_PAIRS_ANSWER - 1), give_back(before);
    append(table, given->line), give_back(before);
    append(table, copy_of(given->line, given->line.length - (given->line.length > 0))), give_back(before);
    remove_line(table, given->number), give_back(before);
    join("", table, given->second, YOTSELINA_TABLE), give_back(before);
    join("", table, given->second, YOTSELINA_TABLE - 1), give_back(before);
    join("-behind", given->second, table, YOTSELINA_TABLE), give_back(before);
    join("-itself", table, table, YOTSELINA_TABLE), give_back(before);
}

/* Every call of a sample, those on a table also with one place less of it. A list that is const holds what it held. */
static void all_of(const struct sample *given)
{
    const struct text lists[] = {given->file, given->table, given->input, given->output, given->second, given->line};
    struct text copies[6];
    for (int i = 0; i < 6; i++)
        copies[i] = copy_of(lists[i], lists[i].length);
    int before = lent_count;
    check(given->file);
    read_file(given->file, YOTSELINA_TABLE), give_back(before);
    read_file(given->file, YOTSELINA_TABLE - 1), give_back(before);
    difference(given->file, given->input, YOTSELINA_DIFFERENCE_ANSWER), give_back(before);
    difference(given->file, given->input, YOTSELINA_DIFFERENCE_ANSWER - 1), give_back(before);
    all_calls(given, given->table);
    if (given->table.length)
        all_calls(given, copy_of(given->table, given->table.length - 1));
    for (int i = 0; i < 6; i++)
        if (lists[i].length && memcmp(copies[i].bytes, lists[i].bytes, lists[i].length))
            fprintf(stderr, "list %d is changed\n", i);
}

/* The numbers of the header, those of a version and what the macros make of numbers that an int has held; then the texts. */
static void print_header(void)
{
    const unsigned numbers[] = {
        YOTSELINA_STATES, YOTSELINA_LINES, YOTSELINA_TABLE, YOTSELINA_FILE, YOTSELINA_LINE, YOTSELINA_WORD, YOTSELINA_OUTPUT, YOTSELINA_ACCEPTS_INPUT,
        YOTSELINA_ACCEPTS_OUTPUT, YOTSELINA_WITNESS, YOTSELINA_WITNESS_OUTPUT, YOTSELINA_PAIRS, YOTSELINA_WRITE_ANSWER, YOTSELINA_VERDICT_ANSWER,
        YOTSELINA_TRANSLATE_ANSWER, YOTSELINA_ACCEPTS_ANSWER, YOTSELINA_PAIRS_ANSWER, YOTSELINA_DIFFERENCE_ANSWER, YOTSELINA_SINGLE, YOTSELINA_SPLIT,
        YOTSELINA_LEVEL, YOTSELINA_FIRST_AHEAD, YOTSELINA_SECOND_AHEAD, YOTSELINA_CLASH, YOTSELINA_ANSWER_SPLIT, YOTSELINA_ANSWER_USEFUL,
        YOTSELINA_ANSWER_SHARED, YOTSELINA_ANSWER_YES, YOTSELINA_ANSWER_PAIRS, YOTSELINA_ANSWER_KIND, YOTSELINA_ANSWER_CLASH_AT, YOTSELINA_VERSION};
    int late = 321 << 16 | 6, negative = -(1 << 30) - (1 << 30) + 7;
    printf("numbers:");
    for (size_t i = 0; i < sizeof numbers / sizeof *numbers; i++)
        printf(" %u", numbers[i]);
    printf(" %u %u %u %u %u\n", yotselina_version(), YOTSELINA_NUMBER(late), YOTSELINA_RECORD(late), YOTSELINA_NUMBER(negative),
           YOTSELINA_RECORD(negative));
    for (uint32_t number = 0; number < TEXTS; number++)
        printf("%s\n", yotselina_text(number | number << 16));
}

/* Reads a place beside a list: behind it, or before it where that is what is guarded. */
static int beside(void)
{
    volatile uint8_t *list = (volatile uint8_t *)lend(5, 1);
    int found = list[memory_kind == 'e' ? -1 : 5];
    give_back(0);
    return found & 0;
}

int main(int count, char **names)
{
    if (count < 2)
        return 3;
    memory_kind = names[1][strlen(names[1]) - 1];
    if (count == 2)
        return beside();
    print_header();
    for (int i = 2; i + 6 < count; i += 7) {
        struct sample given;
        given.file = content(names[i]), given.table = content(names[i + 1]), given.input = content(names[i + 2]), given.output = content(names[i + 3]);
        given.second = content(names[i + 4]), given.line = content(names[i + 5]), given.number = number_in(content(names[i + 6]));
        printf("sample %d\n", i / 7);
        all_of(&given);
        give_back(0);
    }
    return 0;
}
