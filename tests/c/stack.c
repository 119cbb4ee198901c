/*
 * How much stack each call takes: it runs on a stack of its own that was painted before, and the deepest byte that lost its colour tells.
 * Prints a line for each call: its name and the bytes. The first argument is the file of the table; its input word is as many ones as a word may have,
 * and the output word that is tested is the beginning of what that table writes. The other two are the files of the tables that are joined.
 * To the first a line is appended, and its line 0 is removed.
 * Then a line for each of some differences of short and of long lists: the codes of the longer list, the kind that is answered, and the bytes.
 * Between them, for each call that takes more than a few pages, how it ends on half of that with a guard page below: at the guard, or otherwise.
 */
#define _XOPEN_SOURCE 700
#define _DEFAULT_SOURCE
#include <signal.h>
#include <stdio.h>
#include <stdlib.h>
#include <string.h>
#include <sys/mman.h>
#include <sys/wait.h>
#include <ucontext.h>
#include <unistd.h>

#include "yotselina.h"

#define ROOM (1 << 22) /* more than two long lists */
#define PAGE 4096
#define FEW (4 * PAGE)
#define AT_GUARD 42
#define PAINT 0xa5
#define SHORT 1000
#define LONG 1000000

static unsigned char room[ROOM];
static uint8_t file[YOTSELINA_FILE + 1], table[YOTSELINA_TABLE], edited[YOTSELINA_TABLE];
static uint8_t first[YOTSELINA_TABLE], second[YOTSELINA_TABLE], result[YOTSELINA_TABLE];
static size_t length;
static uint8_t word[YOTSELINA_WITNESS], flags[YOTSELINA_PAIRS], out[YOTSELINA_FILE];
static uint16_t path_a[YOTSELINA_WITNESS], path_b[YOTSELINA_WITNESS];
static uint8_t output_x[YOTSELINA_WITNESS_OUTPUT], output_y[YOTSELINA_WITNESS_OUTPUT], output[YOTSELINA_OUTPUT], input[YOTSELINA_WORD];
static uint8_t tested[YOTSELINA_ACCEPTS_OUTPUT], line[YOTSELINA_LINE]; /* a line of zeros is one from state 0 to itself */
static uint64_t answer[YOTSELINA_VERDICT_ANSWER];
static uint8_t list_x[LONG], list_y[LONG];
static size_t length_x, length_y;
static uint32_t returned;
static size_t itself; /* what making a call takes */
static ucontext_t here, there;

static void nothing(void) { returned = 0; }
static void version(void) { returned = yotselina_version() != YOTSELINA_VERSION; }
static void check(void) { returned = yotselina_check(file, length); }
static void read_file(void) { returned = yotselina_read(file, length, table, sizeof table); }
static void write_file(void) { returned = yotselina_write(table, sizeof table, out, sizeof out, answer, YOTSELINA_WRITE_ANSWER); }
static void verdict(void)
{
    returned = yotselina_verdict(table, sizeof table, word, sizeof word, path_a, YOTSELINA_WITNESS, path_b, YOTSELINA_WITNESS,
                                 output_x, sizeof output_x, output_y, sizeof output_y, answer, YOTSELINA_VERDICT_ANSWER);
}
static void translate(void)
{
    returned = yotselina_translate(table, sizeof table, input, sizeof input, output, sizeof output, answer, YOTSELINA_TRANSLATE_ANSWER);
}
static void accepts(void)
{
    returned = yotselina_accepts(table, sizeof table, input, YOTSELINA_ACCEPTS_INPUT, tested, sizeof tested, answer, YOTSELINA_ACCEPTS_ANSWER);
}
static void useful_states(void) { returned = yotselina_useful_states(table, sizeof table, flags, sizeof flags); }
static void look(void) { returned = yotselina_look(table, sizeof table, flags, sizeof flags); }
static void useful_pairs(void)
{
    returned = yotselina_useful_pairs(table, sizeof table, flags, sizeof flags, answer, YOTSELINA_PAIRS_ANSWER);
}
static void append(void) { returned = yotselina_append(edited, sizeof edited, line, sizeof line); }
static void remove_line(void) { returned = yotselina_remove(edited, sizeof edited, 0); }
static void join(void) { returned = yotselina_join(first, sizeof first, second, sizeof second, result, sizeof result); }
static void difference(void)
{
    returned = yotselina_difference(file, length, file, length, answer, YOTSELINA_DIFFERENCE_ANSWER);
}
static void difference_of_lists(void)
{
    returned = yotselina_difference(list_x, length_x, list_y, length_y, answer, YOTSELINA_DIFFERENCE_ANSWER);
}

/* The bytes of stack that a call takes. */
static size_t deepest(void (*call)(void))
{
    size_t left = 0;
    memset(room, PAINT, ROOM);
    getcontext(&there);
    there.uc_stack.ss_sp = room;
    there.uc_stack.ss_size = ROOM;
    there.uc_link = &here;
    makecontext(&there, call, 0);
    swapcontext(&here, &there);
    while (left < ROOM && room[left] == PAINT)
        left++;
    return ROOM - left;
}

/* The same without what making it takes; a call that is refused ends the program. */
static size_t taken(const char *name, void (*call)(void))
{
    size_t bytes = deepest(call);
    if (returned != 0) {
        fprintf(stderr, "%s: refused with number %u, record %u: %s\n", name, (unsigned)YOTSELINA_NUMBER(returned), (unsigned)YOTSELINA_RECORD(returned),
                yotselina_text(returned));
        exit(2);
    }
    return bytes - itself;
}

static unsigned char *guard;

static void at_fault(int number, siginfo_t *fault, void *context)
{
    unsigned char *touched = (unsigned char *)fault->si_addr;
    (void)number, (void)context;
    _exit(touched >= guard && touched < guard + PAGE ? AT_GUARD : 1);
}

/* The call on a stack of so many bytes, with a guard page below it and below that memory which may be written; never returns. */
static void on_guarded_stack(void (*call)(void), size_t bytes)
{
    static unsigned char handlers[1 << 16];
    stack_t other;
    struct sigaction action;
    unsigned char *memory = (unsigned char *)mmap(NULL, ROOM + PAGE + bytes, PROT_READ | PROT_WRITE, MAP_PRIVATE | MAP_ANONYMOUS, -1, 0);
    memset(&other, 0, sizeof other);
    memset(&action, 0, sizeof action);
    other.ss_sp = handlers;
    other.ss_size = sizeof handlers;
    action.sa_sigaction = at_fault;
    action.sa_flags = SA_SIGINFO | SA_ONSTACK;
    guard = memory + ROOM;
    if (memory == MAP_FAILED || mprotect(guard, PAGE, PROT_NONE) || sigaltstack(&other, NULL) || sigaction(SIGSEGV, &action, NULL))
        _exit(2);
    getcontext(&there);
    there.uc_stack.ss_sp = guard + PAGE;
    there.uc_stack.ss_size = bytes;
    there.uc_link = &here;
    makecontext(&there, call, 0);
    swapcontext(&here, &there);
    _exit(3);
}

static void measure(const char *name, void (*call)(void))
{
    size_t bytes = taken(name, call);
    int status;
    pid_t child;
    printf("%s %lu\n", name, (unsigned long)bytes);
    fflush(stdout);
    if (bytes < FEW)
        return;
    child = fork();
    if (child == 0)
        on_guarded_stack(call, bytes / 2 / PAGE * PAGE);
    waitpid(child, &status, 0);
    printf("%s on half of it ends %s\n", name, WIFEXITED(status) && WEXITSTATUS(status) == AT_GUARD ? "at the guard" : "otherwise");
}

/* Lists that are level, each of them ahead by half, and a clash at the last place. */
static void measure_lists(size_t codes)
{
    const size_t lengths[4][2] = {{codes, codes}, {codes, codes / 2}, {codes / 2, codes}, {codes, codes}};
    int i;
    for (i = 0; i < 4; i++) {
        size_t bytes;
        length_x = lengths[i][0];
        length_y = lengths[i][1];
        list_y[codes - 1] = i == 3;
        bytes = taken("yotselina_difference", difference_of_lists);
        printf("%lu codes, kind %lu: %lu\n", (unsigned long)codes, (unsigned long)answer[0], (unsigned long)bytes);
    }
    list_y[codes - 1] = 0;
}

/* Reads a file into a list of YOTSELINA_FILE + 1 places. */
static size_t content(const char *name, uint8_t *list)
{
    size_t bytes;
    FILE *stream = fopen(name, "rb");
    if (stream == NULL) {
        perror(name);
        exit(2);
    }
    bytes = fread(list, 1, YOTSELINA_FILE + 1, stream);
    fclose(stream);
    return bytes;
}

/* The table of a file that is joined. */
static void hold(const char *name, uint8_t *held)
{
    length = content(name, file);
    if (yotselina_read(file, length, held, YOTSELINA_TABLE)) {
        fprintf(stderr, "%s: no table\n", name);
        exit(2);
    }
}

int main(int count, char **arguments)
{
    if (count != 4) {
        fprintf(stderr, "usage: stack FILE FIRST SECOND\n");
        return 2;
    }
    hold(arguments[2], first);
    hold(arguments[3], second);
    length = content(arguments[1], file);
    memset(input, 1, sizeof input);
    itself = deepest(nothing);
    measure("yotselina_version", version);
    measure("yotselina_check", check);
    measure("yotselina_read", read_file);
    measure("yotselina_write", write_file);
    measure("yotselina_verdict", verdict);
    measure("yotselina_translate", translate);
    memcpy(tested, output, sizeof tested);
    measure("yotselina_accepts", accepts);
    measure("yotselina_useful_states", useful_states);
    measure("yotselina_look", look);
    measure("yotselina_useful_pairs", useful_pairs);
    memcpy(edited, table, sizeof edited);
    measure("yotselina_append", append);
    measure("yotselina_remove", remove_line);
    measure("yotselina_join", join);
    measure("yotselina_difference", difference);
    measure_lists(SHORT);
    measure_lists(LONG);
    return 0;
}
