/*
 * yotselina.h - the library that a unit links
 *
 * NAME
 *   yotselina - a transducer table, held in memory that the caller lends: its verdict, its translations, a test of an input word and an output
 *   word, its useful states; two tables joined to one; a line appended or removed
 *
 * SYNOPSIS
 *   #include "yotselina.h"
 *   cc -Iinclude program.c target/lib/libyotselina.a        (`./make-library` writes the archive and a shared object: x86-64 Linux)
 *
 *   static uint8_t table[YOTSELINA_TABLE];
 *   r = yotselina_read(file, file_length, table, sizeof table);                                         once
 *   r = yotselina_translate(table, sizeof table, input, n, output, sizeof output, answer, 1);           for each word
 *   r = yotselina_append(table, sizeof table, line, sizeof line);                                       edited where it is held
 *
 * A HELD TABLE
 *   is a list of YOTSELINA_TABLE bytes. It has no pointer in it and needs no alignment: it may be copied, kept, sent and compared. Two held
 *   tables that the calls take are the same table exactly when their bytes are the same. The calls that make a table write it, so that no
 *   caller need know its places:
 *
 *     [0]            the number of states, 1 to 32
 *     [1] to [32]    a flag for each state: 1 for a start state, else 0
 *     [33] to [64]   a flag for each state: 1 for a final state, else 0
 *     [65] to [96]   a flag for each state: 1 for a useful state, else 0; yotselina_look shows these
 *     [97], [98]     the count of lines, the lower byte first
 *     [99] on        YOTSELINA_LINES lines of YOTSELINA_LINE bytes each, as yotselina_append takes one; beyond the count all 0
 *
 *   Any bytes may be lent. A table that breaks a rule of document 01, or that has a flag other than 0 and 1 or wrong flags of useful states, is
 *   refused with 8 by every call but the look. The form changes with the library's version; the table file (docs/MANUAL.md) is the form to keep.
 *
 * WHAT IS LENT
 *   A list is lent as a pointer and then the number of its places (not of its bytes). Of a held table the first YOTSELINA_TABLE places are read
 *   or written, of a line the first YOTSELINA_LINE: more may be lent, and what stands behind is not looked at. The number of a line is given by
 *   value. Everything that a call answers goes into lists that the caller lends; an answer of numbers goes into the list `answer`.
 *
 * RETURN VALUE
 *   0: done. Otherwise the call is refused: YOTSELINA_NUMBER(r) is the number below, yotselina_text(r) a text for it, and YOTSELINA_RECORD(r) the
 *   record of the file in which the fault is, counted from 0 for `T` (1 to 6, of yotselina_check and yotselina_read; else 0).
 *
 *     1    the text ends inside a record or before it
 *     2    a wrong letter, or no byte 10 at the record's end
 *     3    a field is not a number
 *     4    a field is outside its range
 *     5    the states of `S` or `F` records do not rise
 *     6    bytes follow the last record
 *     7    a lent list is too short: for the result (yotselina_translate, yotselina_write), else below its size
 *     8    the table breaks a rule, or its flags of useful states are wrong
 *     9    the input word has over 255 codes (yotselina_translate)
 *     10   an input code is 0 or over 250
 *     11   no accepting path reads the input word (yotselina_translate)
 *     13   the input word has over 63 codes, or the output word over 127 (yotselina_accepts)
 *     14   an output code is 0 or over 250 (yotselina_accepts)
 *     15   a line of the first table writes more than one code (yotselina_join)
 *     16   the two tables have over 32 joined pairs of states (yotselina_join)
 *     17   the table would have over 256 lines (yotselina_join, yotselina_append)
 *     18   no line has that number (yotselina_remove)
 *     19   the line breaks a range, or holds anything but 0 beyond its count of output codes (yotselina_append)
 *     100  a list without which the call cannot begin is too short: `answer`, a held table, or `line`
 *
 *   docs/MANUAL.md has a cure for each. There is no number 12.
 *
 * ORDER
 *   100 for `answer`, then 100 for each held table in the order of the arguments, then 100 for `line`; then those of the call, in the order that
 *   stands with it. A file's refusals come from left to right. 7 is never said of a held table: 8 goes before 7, and memory that is too short
 *   for a table cannot be looked at for 8.
 *
 * WHAT IS LEFT UNCHANGED
 *   A refused call changes nothing of what is lent: no answer, no output and no held table, the edited one included. A call that is done changes
 *   only what it says that it writes: places beyond that hold what they held. A const list is never changed.
 *
 * WHAT THE CALLER OWES
 *   What C cannot check, and so what no proof of the library can answer for:
 *   - each pointer is aligned for its type and leads to at least as many places as the length after it says, readable, and writable where
 *     it is not const; with length 0 nothing is read or written through it, and it may be null;
 *   - no list that is not const overlaps any other list of the same call; const lists may overlap (a table may be joined with itself);
 *   - nothing else writes to a lent list, or reads one that is not const, until the call returns;
 *   - the stack has room for what the call says; YOTSELINA_STACK bytes are enough for any call. A guard page (4,096 bytes) below the stack is
 *     advisable: the code touches its stack page by page, downwards, so that one which is too small ends there; without a guard what lies
 *     below is overwritten.
 *   Nothing else is required: any bytes, any lengths.
 *
 * STATE, MEMORY, THREADS AND INTERRUPTS
 *   Calls keep no state, use no heap, open no file, take no lock, and depend on nothing but what is lent. Each call ends. Of C's library the
 *   archive takes memcpy, memset and their like only. Calls are reentrant: they may run in several threads at once, and in a signal or interrupt
 *   handler while another call is interrupted. What a call writes must be its own; a table that no call edits may be lent to all of them. A
 *   handler's stack must have room for the call.
 *
 * PROCESSORS
 *   The archive is built for x86-64 and Linux's calling convention. It has no floating point, but uses the SSE2 registers (xmm): as after any call
 *   they are not what they were, so an interrupt handler or a kernel that calls it must save them. For other processors nothing is built. What is
 *   proved is proved of the source, which does not depend on the processor.
 *
 * PROOFS
 *   Each call meets the contract that stands with it in crates/unit, for every input. The macros and yotselina_text are C, and proved of nothing.
 */
#ifndef YOTSELINA_H
#define YOTSELINA_H

#include <stddef.h>
#include <stdint.h>

/* The version of this header: the major number in the upper 16 bits (it rises where a held table, an answer or what a call is given changes), the
   minor in the lower (it rises where calls are added). yotselina_version() is that of the library. */
#define YOTSELINA_VERSION 0x00020000

/* The number and the record of a refusal; `r` may be of any integer type that held what was returned. */
#define YOTSELINA_NUMBER(r) ((uint32_t)(r) & 0xffffu)
#define YOTSELINA_RECORD(r) ((uint32_t)(r) >> 16)

/* The numbers of the refusals: those of documents 01 and 02, and one of the library's own. */
#define YOTSELINA_ENDED 1
#define YOTSELINA_WRONG_BYTE 2
#define YOTSELINA_NOT_A_NUMBER 3
#define YOTSELINA_OUT_OF_RANGE 4
#define YOTSELINA_NOT_RISING 5
#define YOTSELINA_BYTES_FOLLOW 6
#define YOTSELINA_TOO_SHORT 7
#define YOTSELINA_INVALID 8
#define YOTSELINA_WORD_TOO_LONG 9
#define YOTSELINA_NO_INPUT_CODE 10
#define YOTSELINA_UNREAD 11
#define YOTSELINA_WORDS_TOO_LONG 13
#define YOTSELINA_NO_OUTPUT_CODE 14
#define YOTSELINA_MORE_THAN_ONE_CODE 15
#define YOTSELINA_MANY_PAIRS 16
#define YOTSELINA_MANY_TRANSITIONS 17
#define YOTSELINA_NO_SUCH_TRANSITION 18
#define YOTSELINA_WRONG_TRANSITION 19
#define YOTSELINA_LIST_TOO_SHORT 100

/* A table: at most so many states and lines (transitions); the bytes of a held table, and of the longest table file. */
#define YOTSELINA_STATES 32
#define YOTSELINA_LINES 256
#define YOTSELINA_TABLE 3171
#define YOTSELINA_FILE 13202

/* Places of a line: the state that it leaves, the one that it enters, its input, the count of its output codes, eight for them. */
#define YOTSELINA_LINE 12

/* The longest input word that is translated, and places that hold any output of one. */
#define YOTSELINA_WORD 255
#define YOTSELINA_OUTPUT 65528

/* The longest input word and the longest output word that are tested. */
#define YOTSELINA_ACCEPTS_INPUT 63
#define YOTSELINA_ACCEPTS_OUTPUT 127

/* Places that the verdict takes: for the word and for each path, and for each output. */
#define YOTSELINA_WITNESS 2047
#define YOTSELINA_WITNESS_OUTPUT 16376

/* The pairs of states. */
#define YOTSELINA_PAIRS 1024

/* Each answer list: how many places it has, and what stands where. */
#define YOTSELINA_VERDICT_ANSWER 8
#define YOTSELINA_ANSWER_SPLIT 0
#define YOTSELINA_ANSWER_USEFUL 1
#define YOTSELINA_ANSWER_WORD 2
#define YOTSELINA_ANSWER_PATH_A 3
#define YOTSELINA_ANSWER_PATH_B 4
#define YOTSELINA_ANSWER_OUTPUT_X 5
#define YOTSELINA_ANSWER_OUTPUT_Y 6
#define YOTSELINA_ANSWER_SHARED 7
#define YOTSELINA_TRANSLATE_ANSWER 1
#define YOTSELINA_ANSWER_CODES 0
#define YOTSELINA_ACCEPTS_ANSWER 1
#define YOTSELINA_ANSWER_YES 0
#define YOTSELINA_PAIRS_ANSWER 1
#define YOTSELINA_ANSWER_PAIRS 0
#define YOTSELINA_DIFFERENCE_ANSWER 2
#define YOTSELINA_ANSWER_KIND 0
#define YOTSELINA_ANSWER_CLASH_AT 1
#define YOTSELINA_WRITE_ANSWER 1
#define YOTSELINA_ANSWER_BYTES 0

/* The verdicts: what stands in place YOTSELINA_ANSWER_SPLIT. */
#define YOTSELINA_SINGLE 0
#define YOTSELINA_SPLIT 1

/* The kinds of a difference: what stands in place YOTSELINA_ANSWER_KIND. */
#define YOTSELINA_LEVEL 0
#define YOTSELINA_FIRST_AHEAD 1
#define YOTSELINA_SECOND_AHEAD 2
#define YOTSELINA_CLASH 3

/* Bytes of stack that are enough for any call; what each takes stands with it (rounded up from what the archive's code reserves). */
#define YOTSELINA_STACK 155648

/* What is returned must be looked at: the compiler says so where it can. */
#if (defined(__cplusplus) && __cplusplus >= 201703L) || (defined(__STDC_VERSION__) && __STDC_VERSION__ >= 202311L)
#define YOTSELINA_CALL [[nodiscard]] uint32_t
#elif defined(__GNUC__)
#define YOTSELINA_CALL __attribute__((warn_unused_result)) uint32_t
#else
#define YOTSELINA_CALL uint32_t
#endif

#ifdef __cplusplus
extern "C" {
#endif

/*
 * yotselina_version - the version of the library
 *
 * Returns it in the form of YOTSELINA_VERSION. A library fits a header that has the same major number and no greater minor one.
 * Stack: 4,096 bytes.
 */
YOTSELINA_CALL yotselina_version(void);

/*
 * yotselina_check - is this a table file?
 *
 *   file, file_length   the bytes of the file
 *
 * Returns 0 if the file is taken. Refusals: 1 to 6, each with its record.
 * Writes nothing.
 * Stack: 24,576 bytes.
 */
YOTSELINA_CALL yotselina_check(const uint8_t *file, size_t file_length);

/*
 * yotselina_read - the table of a file
 *
 *   file, file_length   the bytes of the table file
 *   table               at least YOTSELINA_TABLE places: where the held table goes, whatever they hold
 *
 * What is written is a table that every call takes; yotselina_write gives the file back, byte for byte.
 *
 * Refusals: 100; 1 to 6 with the record.
 * Stack: 24,576 bytes.
 */
YOTSELINA_CALL yotselina_read(const uint8_t *file, size_t file_length, uint8_t *table, size_t table_length);

/*
 * yotselina_write - the file of a table
 *
 *   table               the held table
 *   out                 where the file goes; YOTSELINA_FILE places hold any
 *   answer              at least YOTSELINA_WRITE_ANSWER places:
 *                       [YOTSELINA_ANSWER_BYTES] how many bytes are written to out
 *
 * Reading the file gives the held table back, byte for byte.
 *
 * Refusals: 100; 8; 7 if the file does not fit, never with YOTSELINA_FILE places.
 * Stack: 24,576 bytes.
 */
YOTSELINA_CALL yotselina_write(const uint8_t *table, size_t table_length,
                               uint8_t *out, size_t out_length,
                               uint64_t *answer, size_t answer_length);

/*
 * yotselina_verdict - has every input word one output at most?
 *
 *   table               the held table
 *   word                at least YOTSELINA_WITNESS places
 *   path_a, path_b      at least YOTSELINA_WITNESS places each
 *   output_x, output_y  at least YOTSELINA_WITNESS_OUTPUT places each
 *   answer              at least YOTSELINA_VERDICT_ANSWER places:
 *                       [YOTSELINA_ANSWER_SPLIT] YOTSELINA_SINGLE or YOTSELINA_SPLIT
 *                       [YOTSELINA_ANSWER_USEFUL] u, the number of useful pairs of states, 0 to 1,024
 *                       [YOTSELINA_ANSWER_WORD] to [YOTSELINA_ANSWER_OUTPUT_Y] how many items are written to word, path_a, path_b, output_x,
 *                       output_y; 0 for single
 *                       [YOTSELINA_ANSWER_SHARED] how many codes output_x and output_y have in common at the beginning, also where one is a
 *                       beginning of the other: less than the longer has, so at most 16,375; 0 for single
 *
 * Split: there is an input word with two accepting paths that write different outputs. One such is shown: `word` has its codes, `path_a` and
 * `path_b` the numbers of the two paths' lines (from 0 in the order of the table), `output_x` and `output_y` what they write. Word and paths
 * have at most 2u - 1 items; path_a stands before path_b in dictionary order, a list before its own extensions.
 * Single: there is no such word, however long. Only `answer` is written.
 * Tables that are alike (docs/MANUAL.md, the table file: as many states, the same start and final states, and the same lines, in any order and
 * each any number of times) get the same verdict and the same u.
 *
 * Refusals: 100; 8; 7 if any of the five lists is below its size, whatever the verdict would be.
 * Stack: 122,880 bytes.
 */
YOTSELINA_CALL yotselina_verdict(const uint8_t *table, size_t table_length,
                                 uint8_t *word, size_t word_length,
                                 uint16_t *path_a, size_t path_a_length,
                                 uint16_t *path_b, size_t path_b_length,
                                 uint8_t *output_x, size_t output_x_length,
                                 uint8_t *output_y, size_t output_y_length,
                                 uint64_t *answer, size_t answer_length);

/*
 * yotselina_translate - the output of an input word
 *
 *   table                the held table
 *   input, input_length  the codes of the input word: at most YOTSELINA_WORD, each 1 to 250; it may be empty
 *   output               where the output goes; YOTSELINA_OUTPUT places hold any
 *   answer               at least YOTSELINA_TRANSLATE_ANSWER places:
 *                        [YOTSELINA_ANSWER_CODES] how many codes are written to output
 *
 * Writes what an accepting path that reads the word writes. If the table is single, all such paths write the same; if it is split, which path
 * is not settled, and 7 is then given only if some output of the word does not fit. Two single tables that are alike give the same output or the
 * same refusal for every word, with YOTSELINA_OUTPUT places each.
 *
 * Refusals: 100; 8; 9, 10, 11; 7 if the output does not fit, never with YOTSELINA_OUTPUT places.
 * Stack: 155,648 bytes.
 */
YOTSELINA_CALL yotselina_translate(const uint8_t *table, size_t table_length,
                                   const uint8_t *input, size_t input_length,
                                   uint8_t *output, size_t output_length,
                                   uint64_t *answer, size_t answer_length);

/*
 * yotselina_accepts - does this input word give this output word?
 *
 *   table                  the held table
 *   input, input_length    the codes of the input word: at most YOTSELINA_ACCEPTS_INPUT, each 1 to 250; it may be empty
 *   output, output_length  the codes of the output word: at most YOTSELINA_ACCEPTS_OUTPUT, each 1 to 250; it may be empty
 *   answer                 at least YOTSELINA_ACCEPTS_ANSWER places:
 *                          [YOTSELINA_ANSWER_YES] 1 (yes) if some accepting path reads the input word and writes the output word, all of it and
 *                          no more; else 0 (no)
 *
 * The table may be split: yes is said of each output of the word. If it is single, yes is said of the output that yotselina_translate gives,
 * and of no other. A word that no accepting path reads has no output, so the answer is no, whatever the output word: 11 is not given.
 *
 * Refusals: 100; 8; 13 for either word, before any code is looked at; 10; 14.
 * Stack: 40,960 bytes.
 */
YOTSELINA_CALL yotselina_accepts(const uint8_t *table, size_t table_length,
                                 const uint8_t *input, size_t input_length,
                                 const uint8_t *output, size_t output_length,
                                 uint64_t *answer, size_t answer_length);

/*
 * yotselina_useful_states - the states that an accepting path passes through, worked out
 *
 *   table               the held table
 *   flags               at least YOTSELINA_STATES places: flag q is 1 if state q is useful, else 0 (also where the table has no state q)
 *
 * Refusals: 100; 8; 7 if flags has fewer than YOTSELINA_STATES places.
 * Stack: 16,384 bytes.
 */
YOTSELINA_CALL yotselina_useful_states(const uint8_t *table, size_t table_length, uint8_t *flags, size_t flags_length);

/*
 * yotselina_look - the panel's look: the flags of useful states that the table keeps
 *
 *   table               the held table
 *   flags               at least YOTSELINA_STATES places: flag q is 1 where the table's flag of state q is 1, else 0
 *
 * Of a table that the other calls take these are the flags of yotselina_useful_states. The look works nothing out and looks at nothing else: it
 * takes any bytes, and 8 is not given.
 *
 * Refusals: 100; 7 if flags has fewer than YOTSELINA_STATES places.
 * Stack: 4,096 bytes.
 */
YOTSELINA_CALL yotselina_look(const uint8_t *table, size_t table_length, uint8_t *flags, size_t flags_length);

/*
 * yotselina_useful_pairs - the pairs of states that two accepting paths which read the same word pass through together
 *
 *   table               the held table
 *   flags               at least YOTSELINA_PAIRS places: flag 32 p + q is 1 if the pair (p, q) is useful, else 0
 *   answer              at least YOTSELINA_PAIRS_ANSWER places:
 *                       [YOTSELINA_ANSWER_PAIRS] u, how many pairs are useful
 *
 * Order counts: (p, q) and (q, p) are two pairs. p may equal q.
 *
 * Refusals: 100; 8; 7 if flags has fewer than YOTSELINA_PAIRS places.
 * Stack: 57,344 bytes.
 */
YOTSELINA_CALL yotselina_useful_pairs(const uint8_t *table, size_t table_length,
                                      uint8_t *flags, size_t flags_length,
                                      uint64_t *answer, size_t answer_length);

/*
 * yotselina_append - one line more, as the last
 *
 *   table               the held table; it is edited where it is
 *   line                at least YOTSELINA_LINE places, of which the first YOTSELINA_LINE are the line:
 *                       [0] the state that it leaves, [1] the state that it enters: each below the table's number of states
 *                       [2] its input: 0 (it reads nothing) or a code, 1 to 250
 *                       [3] how many output codes it has, 0 to 8
 *                       [4] to [11] so many output codes, 1 to 250 each, and behind them 0
 *
 * The table then has the line behind its last one, one line more in its count, and the flags of the states that are then useful; all else is as it
 * was. A line that the table has already is taken, and stands in it once more.
 *
 * Refusals: 100; 8; 19; 17.
 * Stack: 24,576 bytes.
 */
YOTSELINA_CALL yotselina_append(uint8_t *table, size_t table_length, const uint8_t *line, size_t line_length);

/*
 * yotselina_remove - one line less
 *
 *   table               the held table; it is edited where it is
 *   number              the line's number, from 0 in the order of the table
 *
 * The table is then without the line, has one line less in its count, and the flags of the states that are then useful; all else is as it was. The
 * lines after it move down one: line number + 1 becomes line number.
 *
 * Refusals: 100; 8; 18 for any number from the count of lines on.
 * Stack: 24,576 bytes.
 */
YOTSELINA_CALL yotselina_remove(uint8_t *table, size_t table_length, size_t number);

/*
 * yotselina_join - two tables in series as one: what the first writes, the second reads
 *
 *   first, second       the two held tables
 *   result              at least YOTSELINA_TABLE places: where the joined table goes, whatever they hold
 *
 * A step of two states, one of each table, is a line of the first that writes a code with a line of the second that reads that code; or, alone, a
 * line of the first that writes nothing or a line of the second that reads nothing. The joined table's states are the joined pairs, those that
 * steps reach from two start states and from which they reach two final states, numbered by the first's state, then the second's. Start states are
 * those of two start states, final states those of two final states. Each step from a joined pair to a joined pair is a line: it reads what the
 * first's line reads and writes what the second's line writes. Lines are ordered by the state that they leave, then the first's line, then the
 * second's, none before any.
 * The joined table relates an input word to an output word exactly if some word between them is an output of the input word by the first table and
 * has the output word by the second. Two single tables join to a single one. Tables that are alike join to tables that are alike, where neither
 * join is refused; 17 may come of one only, since repeats make lines. If there is no joined pair, the blank table is written: one state, and
 * nothing else.
 *
 * Refusals: 100; 8 for either table; 15, 16, 17.
 * Stack: 69,632 bytes.
 */
YOTSELINA_CALL yotselina_join(const uint8_t *first, size_t first_length,
                              const uint8_t *second, size_t second_length,
                              uint8_t *result, size_t result_length);

/*
 * yotselina_difference - how two lists of codes compare
 *
 *   x, x_length    the first list, of any length and any bytes
 *   y, y_length    the second list
 *   answer         at least YOTSELINA_DIFFERENCE_ANSWER places:
 *                  [YOTSELINA_ANSWER_KIND] YOTSELINA_LEVEL (the lists are the same), YOTSELINA_FIRST_AHEAD (y is a beginning of x, which goes
 *                  on), YOTSELINA_SECOND_AHEAD (x is a beginning of y, which goes on), YOTSELINA_CLASH (they part before either ends)
 *                  [YOTSELINA_ANSWER_CLASH_AT] of a clash, how many codes the two have in common at the beginning; else 0. Where one is ahead,
 *                  its unmatched end begins at the length of the other
 *
 * Refusals: 100.
 * Stack: 4,096 bytes.
 */
YOTSELINA_CALL yotselina_difference(const uint8_t *x, size_t x_length,
                                    const uint8_t *y, size_t y_length,
                                    uint64_t *answer, size_t answer_length);

#ifdef __cplusplus
}
#endif

/* What a call returned, in words; never null. */
static inline const char *yotselina_text(uint32_t returned)
{
    switch (YOTSELINA_NUMBER(returned)) {
    case 0:
        return "done";
    case YOTSELINA_ENDED:
        return "the text ends inside a record or before it";
    case YOTSELINA_WRONG_BYTE:
        return "a wrong letter, or no byte 10 at the record's end";
    case YOTSELINA_NOT_A_NUMBER:
        return "a field is not a number";
    case YOTSELINA_OUT_OF_RANGE:
        return "a field is outside its range";
    case YOTSELINA_NOT_RISING:
        return "the states of S or F records do not rise";
    case YOTSELINA_BYTES_FOLLOW:
        return "bytes follow the last record";
    case YOTSELINA_TOO_SHORT:
        return "a lent list is too short for the result, or below its size";
    case YOTSELINA_INVALID:
        return "the table breaks a rule, or its flags of useful states are wrong";
    case YOTSELINA_WORD_TOO_LONG:
        return "the input word has over 255 codes";
    case YOTSELINA_NO_INPUT_CODE:
        return "an input code is 0 or over 250";
    case YOTSELINA_UNREAD:
        return "no accepting path reads the input word";
    case YOTSELINA_WORDS_TOO_LONG:
        return "the input word has over 63 codes, or the output word over 127";
    case YOTSELINA_NO_OUTPUT_CODE:
        return "an output code is 0 or over 250";
    case YOTSELINA_MORE_THAN_ONE_CODE:
        return "a line of the first table writes more than one code";
    case YOTSELINA_MANY_PAIRS:
        return "the two tables have over 32 joined pairs of states";
    case YOTSELINA_MANY_TRANSITIONS:
        return "the table would have over 256 lines";
    case YOTSELINA_NO_SUCH_TRANSITION:
        return "no line has that number";
    case YOTSELINA_WRONG_TRANSITION:
        return "the line breaks a range, or holds anything but 0 beyond its count of output codes";
    case YOTSELINA_LIST_TOO_SHORT:
        return "a list without which the call cannot begin is too short";
    default:
        return "no number of this library";
    }
}

#endif
