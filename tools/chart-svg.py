#!/usr/bin/env python3
"""Draws a diagram that `sheet chart` printed as SVG.

    tools/chart-svg.py PAGE [N] > picture.svg

PAGE is a Markdown page, and N says which of its mermaid blocks is drawn: 1, the first, if it is left out.
Only the lines that `sheet chart` prints are understood: participants, arrows, notes over nodes, and rect.
"""
import html
import re
import sys

FONT, LETTER, LINE = 13, 7.0, 17  # size of the letters, their mean width, and the height of a line
ARROW = re.compile(r"(\w+?)(-->>|->>|--x|-x)(\w+): (.*)")
NOTE = re.compile(r"Note over (\w+)(?:,(\w+))?: (.*)")
PARTICIPANT = re.compile(r"participant (\w+)(?: as (.*))?")
RECT = re.compile(r"rect rgb\((\d+), (\d+), (\d+)\)")


def block(page, number):
    """The lines of one of the mermaid blocks of a page."""
    blocks = re.findall(r"^```mermaid\n(.*?)^```", page, re.M | re.S)
    lines = [line.strip() for line in blocks[number - 1].splitlines()]
    if lines[0] != "sequenceDiagram":
        sys.exit("not a sequence diagram: " + lines[0])
    return [line for line in lines[1:] if line]


def width(text):
    return max(len(line) for line in text) * LETTER


def words(x, y, text, anchor="middle", extra=""):
    """Lines of text, the first with its middle at y."""
    for place, line in enumerate(text):
        yield (f'<text x="{x:.0f}" y="{y + place * LINE + 4:.0f}" text-anchor="{anchor}"{extra}>'
               f"{html.escape(line)}</text>")


class Picture:
    def __init__(self, lines):
        self.names, self.grounds, self.drawn, self.steps = {}, [], [], []
        for line in lines:
            self.read(line)
        self.gap = max([130] + [(width(s[4]) + 40) / max(1, abs(self.place(s[1]) - self.place(s[3])))
                                for s in self.steps if s[0] == "arrow" and s[1] != s[3]])
        self.left, self.right = -70, (len(self.names) - 1) * self.gap + 70
        self.y = 50
        for step in self.steps:
            getattr(self, step[0])(*step[1:])

    def read(self, line):
        if m := PARTICIPANT.fullmatch(line):
            self.names[m[1]] = m[2] or m[1]
        elif m := ARROW.fullmatch(line):
            self.steps.append(("arrow", m[1], m[2], m[3], m[4].split("<br/>")))
        elif m := NOTE.fullmatch(line):
            self.steps.append(("note", m[1], m[2] or m[1], m[3].split("<br/>")))
        elif m := RECT.fullmatch(line):
            self.steps.append(("begin", f"rgb({m[1]},{m[2]},{m[3]})"))
        elif line == "end":
            self.steps.append(("end",))
        else:
            sys.exit("not understood: " + line)

    def place(self, name):
        return list(self.names).index(name)

    def x(self, name):
        return self.place(name) * self.gap

    def arrow(self, sender, line, receiver, text):
        dash = ' stroke-dasharray="5 4"' if line.startswith("--") else ""
        head = "cross" if line.endswith("x") else "head"
        a, b = self.x(sender), self.x(receiver)
        pen = f'fill="none" stroke="#333"{dash} marker-end="url(#{head})"/>'
        self.y += 26
        if a == b:
            self.drawn += words(a + 10, self.y, text, "start", ' class="halo"')
            self.drawn.append(f'<path d="M{a:.0f} {self.y + 12} h30 v16 h-26" {pen}')
            self.right = max(self.right, a + 20 + width(text))
            self.y += 28
        else:
            self.drawn += words((a + b) / 2, self.y, text, extra=' class="halo"')
            end = b - 4 if b > a else b + 4
            self.drawn.append(f'<path d="M{a:.0f} {self.y + 14} H{end:.0f}" {pen}')
            self.y += 14

    def note(self, first, last, text):
        middle = (self.x(first) + self.x(last)) / 2
        wide = max(width(text) + 20, abs(self.x(last) - self.x(first)) + 60)
        tall = LINE * len(text) + 10
        self.y += 14
        self.drawn.append(f'<rect x="{middle - wide / 2:.0f}" y="{self.y}" width="{wide:.0f}" height="{tall}" '
                          'fill="#fff5ad" stroke="#aaaa33"/>')
        self.drawn += words(middle, self.y + 5 + LINE / 2, text)
        self.left, self.right = min(self.left, middle - wide / 2 - 10), max(self.right, middle + wide / 2 + 10)
        self.y += tall

    def begin(self, colour):
        self.y += 12
        self.grounds.append([colour, self.y])

    def end(self):
        self.y += 10
        self.grounds[-1].append(self.y)

    def heads(self, y):
        for name, label in self.names.items():
            yield (f'<rect x="{self.x(name) - 45:.0f}" y="{y}" width="90" height="32" rx="3" fill="#ececff" '
                   'stroke="#9370db"/>')
            yield from words(self.x(name), y + 16, [label])

    def svg(self):
        top, bottom = 10, self.y + 24
        size = f"{self.left - 10:.0f} 0 {self.right - self.left + 20:.0f} {bottom + 42:.0f}"
        yield f'<svg xmlns="http://www.w3.org/2000/svg" viewBox="{size}" width="{size.split()[2]}" height="{size.split()[3]}">'
        yield (f"<style>text {{ font: {FONT}px sans-serif; fill: #222 }} "
               ".halo { paint-order: stroke; stroke: #fff; stroke-width: 3px }</style>")
        yield ('<defs><marker id="head" viewBox="0 0 10 10" refX="9" refY="5" markerWidth="9" markerHeight="9" '
               'orient="auto-start-reverse"><path d="M0 0 L10 5 L0 10 z" fill="#333"/></marker>'
               '<marker id="cross" viewBox="0 0 10 10" refX="9" refY="5" markerWidth="11" markerHeight="11">'
               '<path d="M1 1 L9 9 M9 1 L1 9" stroke="#c00" stroke-width="2"/></marker></defs>')
        yield f'<rect x="{self.left - 10:.0f}" y="0" width="100%" height="100%" fill="#fff"/>'
        for colour, start, end in self.grounds:
            yield (f'<rect x="{self.left:.0f}" y="{start}" width="{self.right - self.left:.0f}" '
                   f'height="{end - start}" fill="{colour}"/>')
        for name in self.names:
            yield f'<path d="M{self.x(name):.0f} {top + 32} V{bottom}" stroke="#999"/>'
        yield from self.drawn
        yield from self.heads(top)
        yield from self.heads(bottom)
        yield "</svg>"


if __name__ == "__main__":
    if len(sys.argv) < 2:
        sys.exit(__doc__)
    with open(sys.argv[1], encoding="utf-8") as page:
        lines = block(page.read(), int(sys.argv[2]) if len(sys.argv) > 2 else 1)
    print("\n".join(Picture(lines).svg()))
