"""States as graphs, as lists are drawn: variables, blocks, whole structures and parts of them."""

import html
import re
import shutil
import subprocess

from .names import OWN

STYLE = 'graph [rankdir=LR, bgcolor="transparent", nodesep=0.25, ranksep=0.45, margin=0.05, fontname="Helvetica"];\n'
STYLE += 'node [fontname="Helvetica", fontsize=11, height=0.3, margin="0.08,0.04"];\n'
STYLE += 'edge [fontname="Helvetica", fontsize=10, arrowsize=0.7];\n'


MOST_ADDRESS = 2**62 - 1


def is_shown(name):
    return not name.startswith((OWN, "$"))


class Picture:
    """Writes one state in the language of dot."""

    def __init__(self, state, name_of, is_followed):
        self.state, self.name_of, self.is_followed = state, name_of, is_followed
        self.lines, self.nulls = [], 0
        self.drawn = set()

    def dot(self):
        for edge in self.state.edges:
            self.draw(edge)
        for edge in self.state.edges:
            self.link(edge)
        for node, names in self.names().items():
            self.variable(node, names)
        return "digraph {\n" + STYLE + "\n".join(self.lines) + "\n}\n"

    def names(self):
        """The variables of each node; those of one name in several functions once."""
        found = {}
        for text, node in self.state.variables:
            if is_shown(text):
                key = node if node == "0" or self.is_target(node) else (node, text)
                found.setdefault(key, [])
                if self.name_of(text) not in found[key]:
                    found[key].append(self.name_of(text))
        return found

    def number(self, node):
        """What is known of a number."""
        ranges = [it.split(" in ")[1] for it in self.state.atoms if it.startswith(f"{node} in ")]
        if not ranges:
            return "any"
        low, high = ranges[0].strip("[]").split(",")
        if low == high:
            return low
        if high == str(MOST_ADDRESS):
            return "an address" if low == "1" else "null or an address"
        if high == "2147483647":
            return "any" if low == "-2147483648" else f"at least {low}"
        return f"at most {high}" if low == "-2147483648" else f"{low}..{high}"

    def is_target(self, node):
        return any(it.at == node or it.end == node for it in self.state.edges)

    def draw(self, edge):
        if edge.kind == "block":
            rows = "".join(self.row(edge.name, name, node) for name, node in edge.fields)
            label = f'<<TABLE BORDER="0" CELLBORDER="1" CELLSPACING="0" CELLPADDING="3"><TR><TD COLSPAN="2"><B>{edge.name}</B></TD></TR>{rows}</TABLE>>'
            self.lines.append(f'"{edge.at}" [shape=plain, label={label}];')
        elif edge.kind == "whole":
            self.lines.append(f'"{edge.at}" [shape=box, style="rounded", peripheries=2, label="{edge.name}"];')
        else:
            self.lines.append(f'"{edge.at}" [shape=box, style="rounded,dashed", label="{edge.name} .."];')
        self.drawn.add(edge.at)

    def row(self, tag, name, node):
        if node is not None and not self.is_followed(tag, name):
            return f'<TR><TD>{name}</TD><TD PORT="{name}">any</TD></TR>'
        if node is None:
            return f'<TR><TD>{name}</TD><TD PORT="{name}"><I>not set</I></TD></TR>'
        if node == "0" or self.is_target(node):
            return f'<TR><TD>{name}</TD><TD PORT="{name}">{"0" if node == "0" else "&#8226;"}</TD></TR>'
        return f'<TR><TD>{name}</TD><TD PORT="{name}">{self.number(node)}</TD></TR>'

    def link(self, edge):
        if edge.kind == "block":
            for name, node in edge.fields:
                if node and node != "0" and self.is_target(node):
                    self.arrow(f'"{edge.at}":"{name}"', node, "")
        elif edge.kind == "segment":
            self.arrow(f'"{edge.at}"', edge.end, 'style=dashed, penwidth=2, label="part of a ' + edge.name + '"')

    def arrow(self, start, node, more):
        self.lines.append(f"{start} -> {self.end(node)} [{more}];")

    def end(self, node):
        if node == "0":
            self.nulls += 1
            self.lines.append(f'null{self.nulls} [shape=plaintext, label="null"];')
            return f"null{self.nulls}"
        if node not in self.drawn:
            self.drawn.add(node)
            self.lines.append(f'"{node}" [shape=box, style=dotted, label="?"];')
        return f'"{node}"'

    def variable(self, key, names):
        label, start = html.escape(", ".join(names)), f'"v{len(self.lines)}"'
        if isinstance(key, str):
            self.lines.append(f"{start} [shape=plaintext, label=<<B>{label}</B>>];")
            self.arrow(start, key, "")
        else:
            self.lines.append(f"{start} [shape=plaintext, label=<<B>{label}</B> = {self.number(key[0])}>];")


def draw(states, name_of, is_followed):
    """The pictures of states as SVG, in order; None for each where dot is not there."""
    if not states or not shutil.which("dot"):
        return [None] * len(states)
    text = "".join(Picture(it, name_of, is_followed).dot() for it in states)
    ran = subprocess.run(["dot", "-Tsvg"], input=text, capture_output=True, text=True, check=False)
    found = re.findall(r"<svg.*?</svg>", ran.stdout, re.S)
    if len(found) != len(states):
        return [None] * len(states)
    return [cleaned(it) for it in found]


def cleaned(svg):
    """Without names of its own, in the colours of the page."""
    svg = re.sub(r"<title>.*?</title>", "", svg, flags=re.S)
    svg = re.sub(r"<!--.*?-->", "", svg, flags=re.S)
    svg = re.sub(r' (id|class)="[^"]*"', "", svg)
    return svg.replace('"black"', '"currentColor"')
