"""Two tables whose join is known by hand, or by what it counts at the limits."""

from means.named import ONE_STATE, table
from means.transducer import MAX_CODE


def turning(states, times, code, *output):
    """A round of lines that read and write the same, each so many times; state 0 is start and final."""
    return table(states, [0], [0], *((state, (state + 1) % states, code, *output) for state in range(states) for _ in range(times)))


def loops(times, code, *output):
    return turning(1, times, code, *output)


def line_of_states(states, starts, finals, code, *output):
    """States in a row, a line from each to the next."""
    return table(states, starts, finals, *((state, state + 1, code, *output) for state in range(states - 1)))


def more_lines(transducer, *lines):
    return transducer._replace(transitions=transducer.transitions + table(1, [], [], *lines).transitions)


BLANK = table(1, [], [])
A_TO_B = table(2, [0], [1], (0, 1, 1, 5))
B_TO_C = table(2, [0], [1], (0, 1, 5, 7, 8))
ECHO = table(1, [0], [0], *((0, 0, code, code) for code in range(1, MAX_CODE + 1)))
LARGEST = turning(8, 4, 1), turning(4, 4, 0, *[MAX_CODE] * 8)  # 32 joined pairs and 256 lines

# what it is about, the two tables, the joined table
KNOWN = (
    ("one step", A_TO_B, B_TO_C, table(2, [0], [1], (0, 1, 1, 7, 8))),
    ("a code that the second does not read", A_TO_B, table(2, [0], [1], (0, 1, 6, 7)), BLANK),
    ("what is read is not what is written", table(2, [0], [1], (0, 1, 5, 1)), B_TO_C, BLANK),
    ("no start state in the first", A_TO_B._replace(starts=()), B_TO_C, BLANK),
    ("no final state in the second", A_TO_B, B_TO_C._replace(finals=()), BLANK),
    ("blank tables", BLANK, BLANK, BLANK),
    ("no lines, start and final", ONE_STATE, ONE_STATE, ONE_STATE),
    ("no lines, all states start and final", table(3, [0, 2], [0, 1, 2]), table(2, [0, 1], [1]), table(2, [0, 1], [0, 1])),
    ("silent lines step alone, in either order", table(2, [0], [1], (0, 1, 1)), table(2, [0], [1], (0, 1, 0, 7)),
     table(4, [0], [3], (0, 1, 0, 7), (0, 2, 1), (1, 3, 1), (2, 3, 0, 7))),
    ("silent lines that read and write nothing", table(2, [0], [1], (0, 1, 0)), table(2, [0], [1], (0, 1, 0)),
     table(4, [0], [3], (0, 1, 0), (0, 2, 0), (1, 3, 0), (2, 3, 0))),
    ("only the second moves", ONE_STATE, table(2, [0], [1], (0, 1, 0, 7), (0, 1, 5, 8)), table(2, [0], [1], (0, 1, 0, 7))),
    ("only the first moves", table(2, [0], [1], (0, 1, 1), (0, 1, 2, 5)), ONE_STATE, table(2, [0], [1], (0, 1, 1))),
    ("the second goes on while the first stands in its final state", A_TO_B, table(3, [0], [2], (0, 1, 5), (1, 2, 0, 7)),
     table(3, [0], [2], (0, 1, 1), (1, 2, 0, 7))),
    ("a line that reads nothing and writes a code", table(2, [0], [1], (0, 1, 0, 5)), B_TO_C, table(2, [0], [1], (0, 1, 0, 7, 8))),
    ("loops", table(1, [0], [0], (0, 0, 1), (0, 0, 2, 5)), table(1, [0], [0], (0, 0, 5, 7), (0, 0, 0)),
     table(1, [0], [0], (0, 0, 0), (0, 0, 1), (0, 0, 2, 7))),
    ("the order of lines", table(1, [0], [0], (0, 0, 1, 5), (0, 0, 2), (0, 0, 3, 5), (0, 0, 4, 6)),
     table(1, [0], [0], (0, 0, 5, 11), (0, 0, 0, 12), (0, 0, 6, 13), (0, 0, 5, 14), (0, 0, 0, 15)),
     table(1, [0], [0], *((0, 0, *label) for label in ((0, 12), (0, 15), (1, 11), (1, 14), (2,), (3, 11), (3, 14), (4, 13))))),
    ("lines twice and three times", table(2, [0], [1], *[(0, 1, 1, 5)] * 2), table(2, [0], [1], *[(0, 1, 5, 7)] * 3),
     table(2, [0], [1], *[(0, 1, 1, 7)] * 6)),
    ("numbers of the joined pairs", table(3, [0, 2], [1], (0, 1, 1, 5), (2, 1, 1, 6)), table(3, [0, 1], [2], (0, 2, 6, 7), (1, 2, 5, 8)),
     table(3, [0, 2], [1], (0, 1, 1, 8), (2, 1, 1, 7))),
    ("pairs that are not reached or do not finish", table(4, [0], [1], (0, 1, 1, 5), (0, 2, 1, 5), (3, 1, 1, 5)), B_TO_C,
     table(2, [0], [1], (0, 1, 1, 7, 8))),
    ("the first's final state, not the second's", table(2, [0], [0, 1], (0, 1, 1, 5)), table(3, [0], [2], (0, 1, 5), (1, 2, 6)), BLANK),
    ("codes 1 and 250", table(1, [0], [0], (0, 0, 250, 1), (0, 0, 1, 250)), table(1, [0], [0], (0, 0, 250, 1), (0, 0, 1, 250)),
     table(1, [0], [0], (0, 0, 250, 250), (0, 0, 1, 1))),
    ("the last states", table(32, [30], [31], (30, 31, 1, 5)), table(32, [31], [30], (31, 30, 5, 9)), table(2, [0], [1], (0, 1, 1, 9))),
)

# what it is about, the two tables; states and lines of the joined table, or the number of the refusal
LIMITS = (
    ("32 joined pairs", turning(8, 1, 1), turning(4, 1, 0, 7), (32, 64)),
    ("33 joined pairs", turning(11, 1, 1), turning(3, 1, 0, 7), 16),
    ("32 pairs, 256 lines", *LARGEST, (32, 256)),
    ("32 pairs, 257 lines", more_lines(turning(8, 4, 1), (0, 0, 2, 9)), more_lines(turning(4, 4, 0, 7), (0, 0, 9)), 17),
    ("33 pairs and over 256 lines", turning(11, 9, 1), turning(3, 9, 0, 7), 16),
    ("256 lines of the first alone", loops(256, 1), ONE_STATE, (1, 256)),
    ("256 lines of the second alone", ONE_STATE, loops(256, 0, 7), (1, 256)),
    ("256 lines of the first and one of the second", loops(256, 1), loops(1, 0, 7), 17),
    ("16 times 16 lines", loops(16, 1, 5), loops(16, 5, 7), (1, 256)),
    ("16 times 16 lines and one", loops(16, 1, 5), more_lines(loops(16, 5, 7), (0, 0, 0)), 17),
    ("one line before 256", loops(1, 1, 5), loops(256, 5, 7), (1, 256)),
    ("256 times 256 lines", loops(256, 1, 1), loops(256, 1, 7), 17),
    ("255 times 256 lines", loops(255, 1, 1), loops(256, 1, 7), 17),
    ("256 times 256 lines at a pair that is not reached", table(2, [0], [0], *[(1, 1, 1, 1)] * 256), loops(256, 1, 7), (1, 0)),
    ("1,024 joined pairs", turning(32, 1, 1), turning(32, 1, 0, 7), 16),
    ("1,024 reached pairs, one joined", line_of_states(32, [0], [0], 1), line_of_states(32, [0], [0], 0, 7), (1, 0)),
    ("1,024 reached pairs, four joined", line_of_states(32, [0], [1], 1), line_of_states(32, [0], [1], 0, 7), (4, 4)),
    ("1,024 pairs that finish, one joined", line_of_states(32, [31], [31], 1), line_of_states(32, [31], [31], 0, 7), (1, 0)),
    ("1,024 pairs of start and final states", table(32, range(32), range(32)), table(32, range(32), range(32)), 16),
    ("the longest file", ONE_STATE, table(32, range(32), range(32), *[(31, 31, 0, *[MAX_CODE] * 8)] * 256), (32, 256)),
    ("two codes on a line that is not reached", table(2, [0], [0], (1, 1, 1, 5, 5)), ONE_STATE, 15),
    ("eight codes on the last line", more_lines(loops(255, 1, 5), (0, 0, 1, *[5] * 8)), ONE_STATE, 15),
    ("two codes on a line of the second", loops(1, 1, 5), loops(1, 5, 7, 7), (1, 1)),
    ("two codes, and no joined pair", table(1, [], [], (0, 0, 1, 5, 5)), ONE_STATE, 15),
    ("two codes and 33 pairs", more_lines(turning(11, 1, 1), (0, 0, 1, 5, 5)), turning(3, 1, 0, 7), 15),
    ("two codes and 257 lines", more_lines(loops(255, 1), (0, 0, 1, 5, 5)), loops(2, 0, 7), 15),
)
