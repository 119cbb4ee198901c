"""In what a picture of the desk tool is wrong: its SVG is parsed, and its nodes, arrows, words and colours are counted."""

import re
import xml.etree.ElementTree as ElementTree

from means import generate
from means.deskanswers import faults_where

A_COLOUR, B_COLOUR = "#0072b2", "#d55e00"
NOTHING = "\N{EN DASH}"


class Picture:
    """The groups of an SVG picture by their ids, and the words on its arrows with their colours."""

    def __init__(self, svg):
        root = ElementTree.fromstring(svg)
        for element in root.iter():
            element.tag = element.tag.rpartition("}")[2]
        self.groups = {group.get("id"): group for group in root.iter("g")}
        self.texts = [(text.text.replace("\xa0", " "), text.get("fill")) for text in root.iter("text")]
        self.words = {text: colour for text, colour in self.texts if re.match(r"\d+: ", text)}

    def of_class(self, name):
        return [group for group in self.groups.values() if name in group.get("class", "").split()]

    def rings(self, state):
        """How many rings a state has, 0 if it is not drawn."""
        group = self.groups.get(f"state-{state}")
        return 0 if group is None else len(group.findall("ellipse"))


def words_of(number, line):
    return f"{number}: {line.input or NOTHING} / {' '.join(map(str, line.output)) or NOTHING}"


def looks(transducer, useful, path_a, path_b):
    """The arrows that must be there: lines between the same states share one if they lie on the same paths and are useful alike."""
    for number, line in enumerate(transducer.transitions):
        on = (number in path_a, number in path_b)
        yield line.source, line.target, on, any(on) or {line.source, line.target} <= useful


def faults_of_path(picture, name, colour, path, other):
    """In what one path is drawn wrong: its arrows have its colour, and so have the words of the lines that it alone takes."""
    arrows = picture.of_class(name)
    strokes = [{line.get("stroke") for line in arrow.iter("path")} for arrow in arrows]
    coloured = {int(text.split(":")[0]) for text, found in picture.words.items() if found == colour}
    return faults_where((bool(arrows) == bool(path), f"{len(arrows)} arrows for {name}"),
                        (all(colour in found for found in strokes), f"{name} is drawn in {strokes}"),
                        (coloured == path - other, f"{name}: the lines {sorted(coloured)} have its colour, not {sorted(path - other)}"))


def faults_of_picture(svg, transducer, witness):
    """The witness is the one that the tool shows for the same table, or None."""
    try:
        picture = Picture(svg)
    except ElementTree.ParseError as error:
        return [f"not XML: {error}"]
    path_a, path_b = (set(path) for path in witness[1:3]) if witness else (set(), set())
    nodes, edges = len(picture.of_class("node")), len(picture.of_class("edge"))
    arrows = len(set(looks(transducer, generate.useful_states(transducer), path_a, path_b)))
    rings = [picture.rings(state) for state in range(transducer.states)]
    words = {words_of(number, line) for number, line in enumerate(transducer.transitions)}
    caption = [text for text, _ in picture.texts]
    faults = faults_where(
        (nodes == transducer.states, f"{nodes} nodes for {transducer.states} states"),
        (rings == [2 if state in transducer.finals else 1 for state in range(transducer.states)], f"the states have {rings} rings"),
        (all(f"start-{state}" in picture.groups for state in transducer.starts), "a start state has no arrow into it"),
        (edges == arrows + len(transducer.starts), f"{edges} arrows instead of {arrows} and {len(transducer.starts)} into start states"),
        (set(picture.words) == words, f"other words on the arrows: {sorted(set(picture.words) ^ words)[:4]}"),
        (any(text.endswith(": split" if witness else ": single") for text in caption), f"no verdict in the caption: {caption[-8:]}"))
    faults += faults_of_path(picture, "path-a", A_COLOUR, path_a, path_b) + faults_of_path(picture, "path-b", B_COLOUR, path_b, path_a)
    if witness and max(len(items) for items in witness) <= 40:
        for name, path, output in (("A", witness[1], witness[3]), ("B", witness[2], witness[4])):
            said = f"path {name}: {'lines' if len(path) > 1 else 'line' if path else 'no line'} {' '.join(map(str, path))}".rstrip()
            said += f", writes {' '.join(map(str, output)) or 'nothing'}"
            faults += faults_where((said in caption, f"{said!r} is not in the caption"))
    return faults
