"""Seeded faults: the library with one function made wrong in C, which the comparisons of the parts library, held, wordtest, join, edits, alike and
threads must find; and the verdict program with its listing made wrong, which those of the part tables must find."""

import subprocess
import tempfile
from ctypes import c_uint8, c_uint16, c_uint64
from itertools import product
from pathlib import Path

from means import alikes, atonce, differences, editing, everycall, generate, heldtables, joins, wordtests
from means.compare import expected_verdict, faults_of_verdict, randomness
from means.findings import Findings
from means.held import HELD
from means.library import BY_VALUE, CALLS, EDITS, SOURCES, Library, build, compile_c, link_shared
from means.listing import parse_verdict, show
from means.named import LATE, WHOLE
from means.programs import Programs
from means.reference import shared
from means.stack import run_stack, stack_of_lists
from means.tools import Missing, debian
from means.transducer import MAX_FILE, record, table_file
from means.workers import spread

GROUP = "library, seeded fault is found"
TYPES = {c_uint8: "uint8_t", c_uint16: "uint16_t", c_uint64: "uint64_t"}
KINDS = ("random, small", "most lines read nothing", "two copies, a code changed", "branches", "coprime cycles", "deterministic")
TABLES, MIXED = 2, 10
# a wrong search, what is asked about repeats, joins, edits and looks with a rule wrong
HELPERS = tuple(SOURCES / name for name in ("forgets.c", "repeats.c", "misjoins.c", "misedits.c", "mislooks.c"))

NO_CODE = "not_all_codes({0}, {0}_length)"
# the rules of a join that misjoins.c can have wrong
MISJOINS = (
    "silent lines step together", "the code between is ignored", "no step alone of the first", "no step alone of the second",
    "one pair of start states", "one start or final state is enough", "pairs that are not reached", "pairs that do not finish",
    "reached pairs are counted", "numbered by the second state", "no state without a joined pair", "no steps to the same pair",
    "a line reads what the second reads", "the second's line first", "no line comes last", "15 for joined states only", "15 after 16 and 17",
    "17 before 16", "33 pairs are taken", "32 pairs are refused", "257 lines are taken", "256 lines are refused", "16 bits count the lines",
    "no state is said to be useful",
)
# the rules of appending and of removing that misedits.c can have wrong
MISEDITS = ("the start states are lost", "the final states are lost", "the useful states stay", "the bytes of the count are exchanged")
MISAPPENDS = (
    "before the last", "as the first", "a line that is there is not appended", "the count is not raised", *MISEDITS, "state n is left",
    "state n is entered", "input 251 is taken", "a count of 9 is taken for 8", "output 0 is taken", "output 251 is taken",
    "anything may stand beyond the count", "anything may stand in the last place", "a thirteenth place is looked at", "eleven places are taken",
    "256 lines are refused", "257 lines are taken", "17 before 19", "a refused line is left behind the count",
)
MISREMOVES = (
    "the line after is removed", "the line before is removed", "the last line takes its place", "the last line stays", "the count is not lowered",
    *MISEDITS, "its repeats are removed", "the number is cut to a byte", "the number is cut to 32 bits", "the count removes the last line",
    "the last line cannot be removed", "the last line is left behind the count",
)
MISLOOKS = ("the start states", "the reached states", "the states that finish", "the set before the edit")  # what mislooks.c can show


def misjoined(rule):
    """The fault that a join has this rule wrong."""
    taken = f"is_taken(first, first_length) && is_taken(second, second_length) && result_length >= {HELD}"
    return rule, "join", f'if ({taken}) return misjoin("{rule}", first, second, result);', ""


def misappended(rule):
    """The fault that appending has this rule wrong."""
    return rule, "append", f'if (is_taken(table, table_length)) return misappend("{rule}", table, line, line_length);', ""


def misremoved(rule):
    """The fault that removing has this rule wrong."""
    return rule, "remove", f'if (is_taken(table, table_length)) return misremove("{rule}", table, number);', ""


def mislooked(rule):
    """The fault that a look shows something else."""
    return rule, "look", "", f'if (!r) mislook("{rule}", table, flags);'


# what a wrong function says first of a table that it refuses, and a table of its own to put right what it must refuse
BROKEN = f"table_length >= {HELD} && !is_taken(table, table_length)"
OWN = f"uint8_t own[{HELD}]; if (table_length >= {HELD}) {{{{ copy(own, table, {HELD}); {{0}} table = own; }}}}"
SHORT = f"table_length += table_length == {HELD - 1};"
LONGER = f"if (table_length > {HELD}) return 100;"
TWO_CODES = "if ({0}[99 + 12 * k + 3] > 1) {1}"
# counts in the eighth number of a verdict what two lists have in common, of which the counts stand in the places given
IN_COMMON = "if (!r && answer[0]) for (answer[7] = 0; answer[7] < answer[{0}] && answer[7] < answer[{1}] && {2}; answer[7]++);"
# what is wrong, the function, what it does before and after the right one is called (r is what that returned)
FAULTS = (
    ("single for everything", "verdict", "", "if (!r && answer[0]) for (int i = 0; i < 8; i++) if (i != 1) answer[i] = 0;"),
    ("one more useful pair", "verdict", "", "if (!r) answer[1]++;"),
    ("the paths in the wrong order", "verdict",
     "uint16_t *p = path_a; path_a = path_b; path_b = p; uint8_t *o = output_x; output_x = output_y; output_y = o;", ""),
    ("an output code changed", "verdict", "", "if (!r && answer[6]) output_y[0] ^= 1;"),
    ("a word one code longer", "verdict", "", "if (!r && answer[0]) word[answer[2]++] = 1;"),
    ("a byte after the list", "verdict", "", "if (!r) word[word_length] ^= 1;"),
    ("a byte before the list", "translate", "", "if (!r) output[-1] ^= 1;"),
    ("a place beyond the count", "translate", "", "if (!r && answer[0] < output_length) output[answer[0]] ^= 1;"),
    ("a single verdict writes", "verdict", "", "if (!r && !answer[0]) path_b[0] ^= 1;"),
    ("one code more in common", "verdict", "", "if (!r && answer[0]) answer[7]++;"),
    ("codes in common of a single table", "verdict", "", "if (!r && !answer[0]) answer[7] = 1;"),
    ("the lines in common are counted", "verdict", "", IN_COMMON.format(3, 4, "path_a[answer[7]] == path_b[answer[7]]")),
    ("the codes in common at the end are counted", "verdict", "",
     IN_COMMON.format(5, 6, "output_x[answer[5] - 1 - answer[7]] == output_y[answer[6] - 1 - answer[7]]")),
    ("the number that the difference carries", "verdict", "", "if (!r && (answer[7] == answer[5] || answer[7] == answer[6])) answer[7] = 0;"),
    ("the number that the difference carries, where X is a beginning of Y", "verdict", "", "if (!r && answer[7] == answer[5]) answer[7] = 0;"),
    ("a byte counts the codes in common", "verdict", "", "if (!r) answer[7] &= 0xff;"),
    ("no more than 4,095 codes are compared", "verdict", "", "if (!r && answer[7] > 4095) answer[7] = 4095;"),
    ("the eighth number is not written", "verdict", "uint64_t held = answer_length > 7 ? answer[7] : 0;", "if (!r) answer[7] = held;"),
    ("the eighth number of a single table is not written", "verdict", "uint64_t held = answer_length > 7 ? answer[7] : 0;",
     "if (!r && !answer[0]) answer[7] = held;"),
    ("a ninth number is written", "verdict", "", "if (!r && answer_length > 8) answer[8] = 0;"),
    ("seven places of the answer are taken", "verdict",
     "uint64_t all[8], *lent = answer; int seven = answer_length == 7; if (seven) { answer = all; answer_length = 8; }",
     "if (!r && seven) for (int i = 0; i < 7; i++) lent[i] = all[i];"),
    ("a refused call writes", "translate", "", "if (r == 11) answer[0] ^= 1;"),
    ("a refused call writes in the last place", "verdict", "", "if (r == 7 && output_y_length) output_y[output_y_length - 1] ^= 1;"),
    ("what is read is changed", "translate", "", "if (!r && input_length) ((uint8_t *)input)[0] ^= 1;"),
    ("the table is changed", "translate", "", f"if (!r) ((uint8_t *)table)[{HELD - 1}] ^= 1;"),
    ("the table's flags are changed", "useful_states", "", "if (!r) ((uint8_t *)table)[96] ^= 1;"),
    ("no record for the last number", "check", "", "if (YOTSELINA_NUMBER(r) == 6) r = 6;"),
    ("another version", "version", "", "r++;"),
    ("8 before 100", "write", "", f"if (r == 100 && {BROKEN}) r = 8;"),
    ("8 before 100", "verdict", "", f"if (r == 100 && {BROKEN}) r = 8;"),
    ("7 before 8", "useful_pairs", "", "if (r == 8 && flags_length < 1024) r = 7;"),
    ("7 before 100", "look", "", "if (r == 100 && flags_length < 32) r = 7;"),
    ("9 before 8", "translate", "", "if (r == 8 && input_length > 255) r = 9;"),
    ("7 before 11", "translate", "", "if (r == 11 && !output_length) r = 7;"),
    ("10 before 9", "translate", "", "if (r == 9 && !input[input_length - 1]) r = 10;"),
    ("7 for memory that is too short", "useful_states", "", f"if (r == 100 && table_length < {HELD}) r = 7;"),
    ("one place short of the table is taken", "verdict", SHORT, ""),
    ("one place short of the table is taken", "useful_states", SHORT, ""),
    ("longer memory is refused", "write", LONGER, ""),
    ("longer memory is refused", "look", LONGER, ""),
    ("one place short is taken", "verdict", "path_b_length += path_b_length == 2046;", ""),
    ("exactly enough is refused", "write", "out_length -= out_length > 0;", ""),
    ("a flag too many", "useful_pairs", "", "if (!r) flags[1023] = 1;"),
    ("a flag that is neither 0 nor 1", "useful_states", "", "if (!r) flags[0] *= 2;"),
    ("a flag that is neither 0 nor 1", "look", "", "if (!r) flags[0] *= 2;"),
    ("31 places are taken", "look", "",
     "uint8_t all[32]; if (r == 7 && flags_length == 31) { r = right(table, table_length, all, 32); copy(flags, all, 31); }"),
    ("a refused look writes", "look", "", "if (r && flags_length) flags[0] ^= 1;"),
    ("the last byte is not counted", "write", "", "if (!r) answer[0]--;"),
    ("the sides are exchanged", "difference", "", "if (!r && (answer[0] == 1 || answer[0] == 2)) answer[0] = 3 - answer[0];"),
    ("the codes in common where one is ahead", "difference", "",
     "if (!r && (answer[0] == 1 || answer[0] == 2)) answer[1] = x_length < y_length ? x_length : y_length;"),
    ("the codes in common where the first is ahead", "difference", "", "if (!r && answer[0] == 1) answer[1] = y_length;"),
    ("the codes in common where the second is ahead", "difference", "", "if (!r && answer[0] == 2) answer[1] = x_length;"),
    ("the codes in common of lists that are level", "difference", "", "if (!r && !answer[0]) answer[1] = x_length;"),
    ("a clash has no codes in common", "difference", "", "if (!r) answer[1] = 0;"),
    ("a clash is one code later", "difference", "", "if (!r && answer[0] == 3) answer[1]++;"),
    ("16 bits count the codes in common", "difference", "", "if (!r) answer[1] &= 0xffff;"),
    ("the second number is written for a clash only", "difference", "uint64_t held = answer_length > 1 ? answer[1] : 0;",
     "if (!r && answer[0] != 3) answer[1] = held;"),
    ("only the first 65,536 codes are compared", "difference", "if (x_length > 65536 && y_length > 65536) x_length = y_length = 65536;", ""),
    ("only the first 999,999 codes are compared", "difference", "if (x_length > 999999 && y_length > 999999) x_length = y_length = 999999;", ""),
    ("a byte over 250 ends a list", "difference", "size_t n = 0; while (n < x_length && x[n] < 251) n++; x_length = n;", ""),
    ("a list that is compared is changed", "difference", "", "if (!r && y_length) ((uint8_t *)y)[y_length - 1] ^= 1;"),
    ("the record is lost", "read", "", "r &= 0xffff;"),
    ("one place short is taken", "read", SHORT, ""),
    ("longer memory is refused", "read", LONGER, ""),
    ("a place behind the table", "read", "", f"if (!r && table_length > {HELD}) table[{HELD}] ^= 1;"),
    ("a refused read writes the blank table", "read", "",
     f"if (r && r != 100) {{ for (int i = 0; i < {HELD}; i++) table[i] = i == 0; }}"),
    ("a refused read writes the last place", "read", "", "if (r && table_length) table[table_length - 1] ^= 1;"),
    ("the file's number before 100", "read", "", "uint32_t f = yotselina_check(file, file_length); if (r == 100 && f) r = f;"),
    ("the useful states are not worked out", "read", "", "if (!r) for (int i = 65; i < 97; i++) table[i] = 0;"),
    ("every state is useful", "read", "", "if (!r) for (int i = 0; i < table[0]; i++) table[65 + i] = 1;"),
    ("the bytes of the count are exchanged", "read", "", "if (!r) { uint8_t low = table[97]; table[97] = table[98]; table[98] = low; }"),
    ("the last line is not cleared", "read", f"uint8_t last = table_length >= {HELD} ? table[{HELD - 1}] : 0;",
     f"if (!r && !table[98]) table[{HELD - 1}] = last;"),
    ("yes for everything", "accepts", "", "if (!r) answer[0] = 1;"),
    ("no for everything", "accepts", "", "if (!r) answer[0] = 0;"),
    ("yes where an output only begins with what is asked", "accepts", "",
     "uint8_t more[128]; if (!r) for (size_t i = 0; i < output_length; i++) more[i] = output[i]; "
     "for (int c = 1; !r && !answer[0] && output_length < 127 && c <= 250; c++) "
     "{ more[output_length] = c; right(table, table_length, input, input_length, more, output_length + 1, answer, answer_length); }"),
    ("yes where what is asked only begins with an output", "accepts", "",
     "if (!r && !answer[0] && output_length) right(table, table_length, input, input_length, output, output_length - 1, answer, answer_length);"),
    ("the position in the output is forgotten", "accepts", "",
     "if (!r) answer[0] = forgets(table, input, input_length, output, output_length);"),
    ("11 for a word that is not accepted", "accepts", "uint64_t held = answer_length ? answer[0] : 0;",
     "if (!r && !answer[0]) { r = 11; answer[0] = held; }"),
    ("10 before 13", "accepts", "", f"if (r == 13 && {NO_CODE.format('input')}) r = 10;"),
    ("14 before 13", "accepts", "", f"if (r == 13 && {NO_CODE.format('output')}) r = 14;"),
    ("14 before 10", "accepts", "", f"if (r == 10 && {NO_CODE.format('output')}) r = 14;"),
    ("13 before 8", "accepts", "", "if (r == 8 && input_length > 63) r = 13;"),
    ("the output's length after the input's codes", "accepts", "", f"if (r == 13 && input_length < 64 && {NO_CODE.format('input')}) r = 10;"),
    ("64 codes are taken", "accepts", "input_length -= input_length == 64;", ""),
    ("127 codes are refused", "accepts", "output_length += output_length == 127;", ""),
    ("output code 251 is taken", "accepts", "uint8_t one[1] = {250}; if (output_length == 1 && output[0] == 251) output = one;", ""),
    ("a refused test writes", "accepts", "", "if (r == 14) answer[0] ^= 1;"),
    ("an answer that is neither 0 nor 1", "accepts", "", "if (!r) answer[0] *= 2;"),
    ("the second place of the answer is written", "accepts", "", "if (!r && answer_length > 1) answer[1] = 0;"),
    ("the output word is changed", "accepts", "", "if (!r && output_length) ((uint8_t *)output)[output_length - 1] ^= 1;"),
    ("the tables are exchanged", "join",
     "const uint8_t *f = first; first = second; second = f; size_t n = first_length; first_length = second_length; second_length = n;", ""),
    ("the last place is not written", "join", f"uint8_t last = result_length >= {HELD} ? result[{HELD - 1}] : 0;",
     f"if (!r && !result[98]) result[{HELD - 1}] = last;"),
    ("a place behind the joined table", "join", "", f"if (!r && result_length > {HELD}) result[{HELD}] ^= 1;"),
    ("a byte beyond the list", "join", "", "if (!r) result[result_length] ^= 1;"),
    ("a refused join writes the blank table", "join", "", f"if (r >= 15 && r <= 17) for (int i = 0; i < {HELD}; i++) result[i] = i == 0;"),
    ("a refused join writes what there is room for", "join", "", "if (r == 100 && result_length) result[0] ^= 1;"),
    ("a join that is refused with 8 writes", "join", "", "if (r == 8) result[0] ^= 1;"),
    ("a table that is joined is changed", "join", "", "if (!r) ((uint8_t *)second)[second_length - 1] ^= 1;"),
    ("8 of the first before 100", "join", "", f"if (r == 100 && first_length >= {HELD} && !is_taken(first, first_length)) r = 8;"),
    ("8 of the second before 100", "join", "", f"if (r == 100 && second_length >= {HELD} && !is_taken(second, second_length)) r = 8;"),
    ("15 before 8 of the second", "join", "", f"for (int k = 0; r == 8 && k < 256; k++) {TWO_CODES.format('first', 'r = 15;')}"),
    ("one place short of the result is taken", "join", f"result_length += result_length == {HELD - 1};", ""),
    ("one place short of the second is taken", "join", f"second_length += second_length == {HELD - 1};", ""),
    ("longer memory is refused", "join", f"if (result_length > {HELD}) return 100;", ""),
    *map(misjoined, MISJOINS),
    ("a refused append writes", "append", "", f"if (r == 17 || r == 19) table[{HELD - 1}] ^= 1;"),
    ("an append that is refused with 8 writes", "append", "", "if (r == 8) table[65] ^= 1;"),
    ("the line that is lent is changed", "append", "", "if (!r) ((uint8_t *)line)[11] ^= 1;"),
    ("a place behind the edited table", "append", "", f"if (!r && table_length > {HELD}) table[{HELD}] ^= 1;"),
    ("19 before 8", "append", "", "if (r == 8 && line_length > 11 && line[3] > 8) r = 19;"),
    ("17 before 8", "append", "", "if (r == 8 && table[98] == 1) r = 17;"),
    ("8 before 100 of the line", "append", "", f"if (r == 100 && {BROKEN}) r = 8;"),
    ("7 for a line that is too short", "append", "", "if (r == 100 && line_length < 12) r = 7;"),
    ("one place short of the table is taken", "append", SHORT, ""),
    ("longer memory is refused", "append", LONGER, ""),
    ("a refused removal writes", "remove", "", "if (r == 18) table[97] ^= 1;"),
    ("a place behind the edited table", "remove", "", f"if (!r && table_length > {HELD}) table[{HELD}] ^= 1;"),
    ("18 before 8", "remove", "", "if (r == 8 && number > 255) r = 18;"),
    ("one place short of the table is taken", "remove", SHORT, ""),
    ("longer memory is refused", "remove", LONGER, ""),
    *map(misappended, MISAPPENDS),
    *map(misremoved, MISREMOVES),
)
# functions that take what is held wrongly, or lose what is held: the comparisons of every byte must find them
FLAG_OF_2 = OWN.format("for (int i = 1; i < 97; i++) own[i] = own[i] == 2 ? 1 : own[i];")
SET_RIGHT = OWN.format("put_right(own);")
BEHIND_COUNT = OWN.format("for (int i = 99 + 12 * (own[97] + 256 * own[98]); i < 3171; i++) own[i] = 0;")
BEHIND_OUTPUTS = OWN.format("for (int k = 0; k < 256; k++) for (int i = own[102 + 12 * k]; i < 8; i++) own[103 + 12 * k + i] = 0;")
STATES_BEYOND = OWN.format("for (int i = own[0]; i < 32; i++) own[1 + i] = own[33 + i] = own[65 + i] = 0;")
UPPER_BYTE = OWN.format("own[98] = own[98] & 1;")
HELD_WRONGLY = (
    *((f"{what} in {name}", name, put_right, "") for name in ("write", "verdict", "useful_states") for what, put_right in (
        ("a flag of 2 is taken for 1", FLAG_OF_2), ("the set is not compared", SET_RIGHT), ("anything may stand beyond the count", BEHIND_COUNT),
        ("anything may stand beyond the outputs", BEHIND_OUTPUTS), ("states beyond the number are not looked at", STATES_BEYOND),
        ("of the count's upper byte one bit is looked at", UPPER_BYTE))),
    ("the set is not compared", "translate", SET_RIGHT, ""),
    ("the set is not compared", "accepts", SET_RIGHT, ""),
    ("the set is not compared", "useful_pairs", SET_RIGHT, ""),
    ("the set is put right", "append", f"if (table_length >= {HELD}) put_right(table);", ""),
    ("a removal that is refused puts the set right", "remove", "", "if (r == 8) put_right(table);"),
    ("8 is said by the look", "look", "", "if (!r && !is_taken(table, table_length)) r = 8;"),
    ("a flag of 2 is shown as 1", "look", "", "if (!r) for (int i = 0; i < 32; i++) if (table[65 + i] == 2) flags[i] = 1;"),
    ("a flag of 2 is shown as 2", "look", "", "if (!r) for (int i = 0; i < 32; i++) if (table[65 + i] == 2) flags[i] = 2;"),
    ("a look puts the set right", "look", "", "if (!r) put_right((uint8_t *)table);"),
    mislooked("the set is worked out"),
    ("the first table is not looked at for 8", "join", "uint8_t own[3171]; if (first_length >= 3171) { copy(own, first, 3171); put_right(own); first = own; }",
     ""),
    ("the second table is not looked at for 8", "join",
     "uint8_t own[3171]; if (second_length >= 3171) { copy(own, second, 3171); put_right(own); second = own; }", ""),
)
# looks that show something else than the useful states: those at tables that edits have made must find them
LOOKS = tuple(map(mislooked, MISLOOKS))
# functions that answer otherwise where a table has a line twice: the comparisons of alikes.py must find them
REPEATS = (
    ("a repeat makes a table split", "verdict", "", "if (!r && repeats(table)) answer[0] = 1;"),
    ("a repeat counts in u", "verdict", "", "if (!r) answer[1] += repeats(table);"),
    ("a word is not read where a line is repeated", "translate", "", "if (!r && repeats(table)) r = 11;"),
    ("a repeat makes a useful pair more", "useful_pairs", "", "if (!r) answer[0] += repeats(table);"),
    ("a repeat makes a state useless", "useful_states", "", "if (!r && repeats(table)) flags[0] = 0;"),
    ("a repeat turns a yes into a no", "accepts", "", "if (!r && repeats(table)) answer[0] = 0;"),
    ("a repeat is not written", "write", "", "if (!r) answer[0] = without_repeats(out, answer[0]);"),
    ("a repeat is not joined", "join", "", "if (!r) drop_repeats(result);"),
    ("a repeat is not appended", "append", "", "if (!r) drop_repeats(table);"),
    ("a repeat is removed, too", "remove", "", "if (!r) drop_repeats(table);"),
)
# functions that are wrong about bytes behind the last record: the comparisons of everycall.py that are about them must find them
TOO_LONG = f"file_length > {MAX_FILE} && YOTSELINA_NUMBER(r) == 6"
LONGEST_REFUSED = f"if (!r && file_length == {MAX_FILE}) r = 321 << 16 | 6;"
CUT = f"if (file_length > {MAX_FILE}) file_length = {MAX_FILE};"
BEHIND = (
    ("6 is not said of a file that is too long", "check", "", f"if ({TOO_LONG}) r = 0;"),
    ("256 bytes behind are none", "check", "", "if (YOTSELINA_NUMBER(r) == 6 && file_length > 256 && !right(file, file_length - 256)) r = 0;"),
    ("a line end behind is taken", "check", "",
     "if (YOTSELINA_NUMBER(r) == 6 && file[file_length - 1] == 10 && !right(file, file_length - 1)) r = 0;"),
    ("a line behind is taken", "check", "",
     "if (YOTSELINA_NUMBER(r) == 6 && file_length > 18 && file[file_length - 18] == 'L' && !right(file, file_length - 18)) r = 0;"),
    *((what, name, before, after) for name in ("check", "read") for what, before, after in (
        ("12 is said of a file that is too long", "", f"if ({TOO_LONG}) r += 6;"), ("the longest file is refused", "", LONGEST_REFUSED),
        ("no more than the longest file is looked at", CUT, ""))),
    ("a table is written though bytes are behind", "read", "", f"if (YOTSELINA_NUMBER(r) == 6) for (int i = 0; i < {HELD}; i++) table[i] = i == 0;"),
)
# a function that keeps something while it runs: seen only where another thread is in it at the same time, which is a matter of luck, and so tried again
TRIES = 20
SHARES = ("memory that threads share", "verdict", "static const uint8_t *volatile kept; kept = table;", "if (!r && kept != table) answer[1]++;")
# a function that copies what is lent: seen only by the stack that it takes
COPIES = ("a list is copied", "difference", "uint8_t copy[x_length + 1]; for (size_t i = 0; i < x_length; i++) copy[i] = x[i]; x = copy;", "")


def of_split(change):
    """A listing that is wrong where the table is split: what stands in place of its `D`, by the verdict that it says."""
    return lambda listing: listing[:listing.rindex(b"D")] + change(parse_verdict(listing)) if listing.startswith(b"V     1") else listing


def of_others(letter):
    """A listing that begins so and has `D`, too."""
    return lambda listing: listing + show(("D", (0,))) if listing.startswith(letter) else listing


# what is wrong with `D`, and the listing that is made of the right one
MISPRINTS = {
    "one more": of_split(lambda said: show(("D", (said.shared + 1,)))),
    "of the paths": of_split(lambda said: show(("D", (shared(*said.witness[1:3]),)))),
    "from the end": of_split(lambda said: show(("D", (shared(*(output[::-1] for output in said.witness[3:])),)))),
    "what the difference carries": of_split(lambda said: show(("D", (said.shared if said.shared < min(map(len, said.witness[3:])) else 0,)))),
    "missing": of_split(lambda said: b""),
    "twice": of_split(lambda said: show(*[("D", (said.shared,))] * 2)),
    "with a count": of_split(lambda said: show(("D", (1, said.shared)))),
    "with no number": of_split(lambda said: b"D\n"),
    "four columns wide": of_split(lambda said: record("D", (said.shared,)).encode()),
    "under another letter": of_split(lambda said: show(("V", (said.shared,)))),
    "of a single table": of_others(b"V     0"),
    "of a refused one": of_others(b"R"),
}


def source(name, before, after):
    """The wrong function in C, around the right one under another name."""
    read, written = CALLS[name]
    constant = [lent for lent in read if name not in EDITS or lent != "table"]
    lists = [("const " * (lent in constant) + TYPES[c_uint8], lent) for lent in read] + [(TYPES[kind], lent) for lent, kind, _ in written]
    parameters = ", ".join(f"size_t {lent}" if lent in BY_VALUE else f"{kind} *{lent}, size_t {lent}_length" for kind, lent in lists) or "void"
    given = ", ".join(lent if lent in BY_VALUE else f"{lent}, {lent}_length" for _, lent in lists)
    return f"""#include "held.h"
#define YOTSELINA_NUMBER(r) ((r) & 0xffff)
uint32_t yotselina_check(const uint8_t *file, size_t file_length);
uint32_t yotselina_useful_states(const uint8_t *table, size_t table_length, uint8_t *flags, size_t flags_length);
int forgets(const uint8_t *table, const uint8_t *input, size_t input_length, const uint8_t *output, size_t output_length);
int repeats(const uint8_t *table);
void drop_repeats(uint8_t *table);
size_t without_repeats(uint8_t *file, size_t length);
uint32_t misjoin(const char *wrong, const uint8_t *first, const uint8_t *second, uint8_t *result);
uint32_t misappend(const char *wrong, uint8_t *table, const uint8_t *line, size_t line_length);
uint32_t misremove(const char *wrong, uint8_t *table, size_t number);
void mislook(const char *wrong, const uint8_t *table, uint8_t *flags);
uint32_t right({parameters});
static inline void put_right(uint8_t *table) {{ work_out((struct held *)table); }}
static inline int is_taken(const uint8_t *table, size_t length)
{{ uint8_t flags[32]; return length >= {HELD} && !{"right" if name == "useful_states" else "yotselina_useful_states"}(table, length, flags, 32); }}
static inline int not_all_codes(const uint8_t *word, size_t length)
{{ for (size_t i = 0; i < length; i++) if (!word[i] || word[i] > 250) return 1; return 0; }}
static inline void copy(uint8_t *to, const void *from, size_t length)
{{ for (size_t i = 0; i < length; i++) to[i] = ((const uint8_t *)from)[i]; }}
uint32_t yotselina_{name}({parameters}) {{ {before} uint32_t r = right({given}); {after} return r; }}
"""


def wrong_parts(folder, archive, fault):
    """The wrong function in C, and the archive with the right one under another name."""
    _, name, before, after = fault
    (folder / "wrong.c").write_text(source(name, before, after), encoding="ascii")
    subprocess.run([debian("objcopy", "binutils"), "--redefine-sym", f"yotselina_{name}=right", archive, folder / "right.a"], check=True)
    return folder / "wrong.c", folder / "right.a"


def wrong_library(folder, archive, helpers, fault):
    """The shared object with the fault in it."""
    wrong, right = wrong_parts(folder, archive, fault)
    link_shared(folder / "wrong.so", right, f"-I{SOURCES}", wrong, *helpers)
    return Library(folder / "wrong.so")


def compiled(folder):
    """The helpers, compiled once for all faults."""
    for helper in HELPERS:
        complaint = compile_c("gcc", "-O1", "-fPIC", "-c", "-o", folder / f"{helper.stem}.o", helper)
        if complaint:
            raise Missing(f"{helper.name}: {complaint}")
    return [folder / f"{helper.stem}.o" for helper in HELPERS]


SOME_EDITS = [*product((editing.compare_list,), ("random, small",), range(TABLES))]
SOME_LOOKS = [(editing.compare_looks,), *SOME_EDITS]
SOME_BYTES = (0, heldtables.PIECE, HELD - 1)  # where the bytes begin that are changed: the flags and the first lines, more lines, the last byte


def some_of(name):
    """A small share of the comparisons of a call."""
    if name == "difference":
        return [(differences.compare_differences,), (differences.compare_long,)]
    if name == "accepts":
        return [(wordtests.compare_known,), (wordtests.compare_refusals,), *product((wordtests.compare_table,), ("few codes",), range(MIXED))]
    if name == "join":
        return [(joins.compare_known,), (joins.compare_limits,), (joins.compare_refusals,), *product((joins.compare_mixed,), range(MIXED)),
                *product((joins.compare_pair,), ("random, small",), range(MIXED))]
    if name in ("append", "remove"):
        return [(editing.compare_known,), *product((editing.compare_each, editing.compare_ways), ("table P", "255 lines")),
                *((editing.compare_refusals, *refused) for refused in editing.REFUSED), *SOME_LOOKS]
    return [*product((everycall.compare_table,), KINDS, range(TABLES)), *product((everycall.compare_mixed,), range(MIXED)), (everycall.compare_orders,),
            *([(everycall.compare_shown,)] if name == "verdict" else ())]


def comparisons_for(fault):
    """Those that must find a fault: of its call, of every byte, of looks, of tables that are alike, of bytes behind the last record, or of threads."""
    name = fault[1]
    if fault == SHARES:
        return [(atonce.compare_threads,)] * TRIES
    if fault in HELD_WRONGLY:
        return product((heldtables.compare_bytes,), ("table D", "32 states, no lines"), SOME_BYTES)
    if fault in LOOKS:
        return SOME_LOOKS
    if fault in REPEATS:
        return product((joins.compare_alike,), range(MIXED)) if name == "join" else product((alikes.compare_calls,), KINDS, range(TABLES))
    if fault in BEHIND:
        return [(everycall.compare_behind,), *((everycall.compare_counts_behind, *whole) for whole in WHOLE if name == "check")]
    return some_of(name)


def found_by(comparisons, *parts):
    """What the first of the comparisons that finds something finds in a library with a fault."""
    found = Findings()
    with tempfile.TemporaryDirectory() as folder:
        library = wrong_library(Path(folder), *parts)
        for compare, *given in comparisons:
            compare(library, found, *given)
            if found.failures:
                break
    return found.failures


def try_fault(_, findings, archive, helpers, fault):
    found = found_by(comparisons_for(fault), archive, helpers, fault)
    findings.check(GROUP, [] if found else [f"not found: {fault[0]} ({fault[1]})"], b"")


def try_no_rule(_, findings, archive, helpers, fault):
    """misjoins.c, misedits.c or mislooks.c with no rule wrong: nothing is found."""
    found = found_by([*some_of(fault[1]), *(SOME_LOOKS if fault[1] == "look" else ())], archive, helpers, fault)
    findings.check_apart("joins, edits and looks with no rule wrong", [f"{group}: {faults}" for group, faults, _, _ in found[:3]], b"", fault[1])


def try_copies(_, findings, archive):
    with tempfile.TemporaryDirectory() as folder:
        taken = stack_of_lists(run_stack(Path(folder), *wrong_parts(Path(folder), archive, COPIES)))
    grown = all(short and long and short < long for short, long in taken.values())
    findings.check(GROUP, [] if grown else [f"not found: {COPIES[0]} ({COPIES[1]}): {taken}"], b"")


class Misprinting(Programs):
    """The programs, the verdict's listing with something wrong."""

    def __init__(self, misprint):
        super().__init__()
        self.misprint = misprint

    def verdict(self, *pieces):
        return self.misprint(super().verdict(*pieces))


def try_misprint(_, findings, what):
    """Generated tables and a file that is refused, by the reference; with no misprint nothing is found."""
    programs = Misprinting(MISPRINTS.get(what, bytes))
    tables = [generate.KINDS[kind][1](randomness("misprints", kind, index))[0] for kind, index in product(KINDS, range(MIXED))]
    contents = [LATE, *map(table_file, tables)]
    found = [fault for content in contents for fault in faults_of_verdict(programs, Findings(), content, *expected_verdict(content))]
    if what is None:
        findings.check_apart("listings with no misprint", found[:3], b"")
    else:
        findings.check("listing, seeded fault is found", [] if found else [f"not found: D {what}"], b"")


def run(findings):
    archive = build()
    with tempfile.TemporaryDirectory() as folder:
        parts = archive, compiled(Path(folder))
        jobs = [(try_fault, *parts, fault) for fault in (*FAULTS, *HELD_WRONGLY, *LOOKS, *REPEATS, *BEHIND, SHARES)] + [(try_copies, archive)]
        jobs += [(try_no_rule, *parts, made("no rule")) for made in (misjoined, misappended, misremoved, mislooked)]
        jobs += [(try_misprint, what) for what in (*MISPRINTS, None)]
        spread(Library, jobs, findings, batch=2)
