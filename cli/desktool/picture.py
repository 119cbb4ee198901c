"""The picture of a table: a graph in Graphviz's language, and Graphviz itself."""

import html
import shutil
import subprocess
from typing import NamedTuple

from .refusals import Failed
from .words import lines_listed, listed

A_COLOUR, B_COLOUR, GREY = "#0072b2", "#d55e00", "#999999"
FORMATS = ("svg", "png", "pdf", "dot")
NOTHING = "\N{EN DASH}"


def attributes(**named):
    """Attributes in brackets; a value that starts with < is an HTML-like label."""
    return "[" + ", ".join(f"{name}={value if value.startswith('<') else quoted(value)}" for name, value in named.items()) + "]"


def quoted(value):
    return '"' + value.replace("\\", "\\\\").replace('"', '\\"') + '"'


def state_node(table, flags, state):
    look = {} if flags[state] else {"color": GREY, "fontcolor": GREY, "style": "dashed"}
    shape = "doublecircle" if state in table.finals else "circle"
    return f"s{state} " + attributes(id=f"state-{state}", label=str(state), shape=shape, **look)


def start_arrow(state):
    """An arrow from nowhere into a start state."""
    return [f"i{state} " + attributes(id=f"nowhere-{state}", shape="point", style="invis", label=""),
            f"i{state} -> s{state} " + attributes(id=f"start-{state}")]


class Look(NamedTuple):
    """How a line is drawn, by where it lies: its name, the colour of its arrow and of its words, and more of Graphviz's attributes."""

    name: str
    colour: str
    words: str
    more: dict


ON_BOTH = Look("path-a path-b", f"{A_COLOUR}:{B_COLOUR}", "black", {"penwidth": "2"})
ON_A = Look("path-a", A_COLOUR, A_COLOUR, {"penwidth": "2"})
ON_B = Look("path-b", B_COLOUR, B_COLOUR, {"penwidth": "2"})
NOT_USEFUL = Look("not-useful", GREY, GREY, {"style": "dashed"})
PLAIN = Look("plain", "black", "black", {})


def look(line, flags, witness):
    """On path A, on B, on both, or between states of which one is not useful."""
    on_a, on_b = (line.number in witness.path_a, line.number in witness.path_b) if witness else (False, False)
    if on_a or on_b:
        return ON_BOTH if on_a and on_b else ON_A if on_a else ON_B
    return PLAIN if flags[line.source] and flags[line.target] else NOT_USEFUL


def row(line, colour):
    """A line's words on its arrow."""
    written = " ".join(map(str, line.output)) or NOTHING
    return f'<font color="{colour}">{line.number}: {line.input or NOTHING} / {written}</font><br align="left"/>'


def grouped(table, flags, witness):
    """The lines by the states that they leave and enter, and these by how they look: lists of (look, lines)."""
    groups = {}
    for line in table.lines:
        drawn = look(line, flags, witness)
        groups.setdefault((line.source, line.target), {}).setdefault(drawn.name, (drawn, []))[1].append(line)
    return {states: list(by_look.values()) for states, by_look in groups.items()}


def arrows(table, flags, witness):
    """One arrow for lines that leave and enter the same states and look the same. Arrows from a state to itself lie one in another, so the outermost,
    which comes last, has the words of all."""
    for (source, target), looks in grouped(table, flags, witness).items():
        for place, (drawn, lines) in enumerate(looks, 1):
            told = [(drawn, lines)] if source != target else looks if place == len(looks) else []
            words = "".join(row(line, drawn_as.words) for drawn_as, told_lines in told for line in told_lines)
            look_of_arrow = {"class": drawn.name, "color": drawn.colour, "tooltip": lines_listed([line.number for line in lines]), **drawn.more}
            yield f"s{source} -> s{target} " + attributes(id=f"arrow-{source}-{target}-{place}", label=f"<{words}>" if words else "", **look_of_arrow)


def caption(name, useful, witness):
    """The verdict; for a split the word, and each path with its output in the path's colour."""
    rows = ["", f"<b>{html.escape(name)}: {'split' if witness else 'single'}</b>, u = {useful:,}"]
    if witness:
        rows.append(f"word {listed(witness.word, False)}" if witness.word else "the empty word")
        for path, lines, output, colour in (("A", witness.path_a, witness.output_x, A_COLOUR), ("B", witness.path_b, witness.output_y, B_COLOUR)):
            rows.append(f'<font color="{colour}">path {path}: {lines_listed(lines, False)}, writes {listed(output, False)}</font>')
    for key in (f"on an arrow: line number, what it reads / what it writes ({NOTHING} nothing)", "double ring: final; dashed: not useful"):
        rows.append(f'<font color="{GREY}" point-size="10">{key}</font>')
    return "<" + "<br/>".join(rows) + "<br/>>"


def graph(name, table, flags, useful, witness):
    """The graph as text: a node for each state, arrows for the lines, an arrow into each start state."""
    body = ["rankdir=LR", "pad=0.2", 'node [fontname="Helvetica", fontsize=13, width=0.6]', 'edge [fontname="Helvetica", fontsize=11, arrowsize=0.7]',
            'fontname="Helvetica"', "fontsize=12", "labelloc=b", "forcelabels=true", f"label={caption(name, useful, witness)}"]
    body += [state_node(table, flags, state) for state in range(table.states)]
    for state in table.starts:
        body += start_arrow(state)
    body += arrows(table, flags, witness)
    return "digraph table {\n" + "".join(f"  {item}\n" for item in body) + "}\n"


def rendered(text, form):
    """The picture's bytes in one of the FORMATS."""
    text = text.encode("utf-8", errors="replace")
    if form == "dot":
        return text
    program = shutil.which("dot")
    if program is None:
        raise Failed("Graphviz is not here (no program dot): install it (Debian: apt-get install graphviz),\n"
                     "or write the graph's text alone with a name that ends in .dot")
    try:
        done = subprocess.run([program, f"-T{form}"], input=text, capture_output=True, check=False)
    except OSError as error:
        raise Failed(f"Graphviz ({program}) cannot be run: {error}") from error
    if done.returncode != 0 or not done.stdout:
        raise Failed(f"Graphviz ({program}) failed, exit status {done.returncode}: {done.stderr.decode(errors='replace').strip()}")
    return done.stdout
