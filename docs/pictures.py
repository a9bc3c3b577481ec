#!/usr/bin/env python3
"""Draws docs/hardened.svg and docs/memory.svg.

    python3 docs/pictures.py            # writes both
    python3 docs/pictures.py --check    # compares them with what it would write; the status is 1 where one differs

The words of the first are what gcc 12.2 makes of the function by -O2, and what becomes of it as docs/MACHINE.md has the units;
the second is the memory of that page. Instructions and addresses have given lengths, whatever the font.
"""

import sys
from pathlib import Path
from xml.sax.saxutils import escape

HERE = Path(__file__).resolve().parent
MONO, PLAIN = "DejaVu Sans Mono, Menlo, Consolas, monospace", "DejaVu Sans, Verdana, Helvetica, sans-serif"
INK, GREY, ADDED, ADDED_BACK = "#1f2328", "#6e7781", "#0a58a8", "#e3eefb"
DATA_BACK, CODE_BACK, SHADOW_BACK, NOTHING_BACK = "#fdf0d9", "#e3f2e1", "#e3eefb", "#f3f4f6"
MONO_WIDTH, ROW = 8.2, 22


class Drawing:
    """Texts and boxes on white."""

    def __init__(self, width, height, told):
        self.size, self.told, self.parts = (width, height), told, []
        self.box(0, 0, width, height, "#ffffff", None)

    def box(self, x, y, width, height, fill, edge=GREY):
        stroke = ' stroke="%s"' % edge if edge else ""
        self.parts.append('<rect x="%g" y="%g" width="%g" height="%g" fill="%s"%s/>' % (x, y, width, height, fill, stroke))

    def line(self, x, y, to_x, to_y):
        self.parts.append('<line x1="%g" y1="%g" x2="%g" y2="%g" stroke="%s"/>' % (x, y, to_x, to_y, GREY))

    def text(self, x, y, words, fill=INK, size=13, bold=False, anchor="start"):
        weight = ' font-weight="bold"' if bold else ""
        self.parts.append('<text x="%g" y="%g" font-family="%s" font-size="%d" fill="%s" text-anchor="%s"%s>%s</text>' % (
            x, y, PLAIN, size, fill, anchor, weight, escape(words)))

    def code(self, x, y, words, fill=INK, anchor="start"):
        self.parts.append('<text x="%g" y="%g" font-family="%s" font-size="13" fill="%s" text-anchor="%s" textLength="%g" '
                          'lengthAdjust="spacingAndGlyphs" xml:space="preserve">%s</text>' % (
                              x, y, MONO, fill, anchor, MONO_WIDTH * len(words), escape(words)))

    def svg(self):
        return '<svg xmlns="http://www.w3.org/2000/svg" width="%d" height="%d" viewBox="0 0 %d %d" role="img">\n<title>%s</title>\n%s\n</svg>\n' % (
            *self.size, *self.size, escape(self.told), "\n".join(self.parts))


SOURCE = ["void set(long *place, long value)", "{", "    *place = value;", "}"]
# the word and the instruction that gcc makes, and those of the image with what they are for; None is what was added
UNITS = [
    ("store", [(None, "00050f93", "addi x31,x10,0", "the address"),
               (None, "024f9f93", "slli x31,x31,36", "its upper 36 bits go,"),
               (None, "024fdf93", "srli x31,x31,36", "so it is below 2^28: in data"),
               ("00b53023  sd   x11,0(x10)", "00bfb023", "sd   x11,0(x31)", "the program's store")]),
    ("return", [(None, "ff81bf83", "ld   x31,-8(x3)", "the shadow stack's newest address"),
                (None, "ff818193", "addi x3,x3,-8", "is taken off it"),
                (None, "001f8463", "beq  x31,x1,8", "is it the one that x1 has?"),
                (None, "fa9ff06f", "jal  x0,40000004", "if not, halt in __cfi_bad_return"),
                ("00008067  jalr x0,0(x1)", "000f8067", "jalr x0,0(x31)", "the program's return")]),
    ("stop", [(None, "f9dff06f", "jal  x0,40000000", "the end of a section is not passed")]),
]


def hardened():
    """A store and a return, and what they become."""
    width, left, unit_at, right, said, top = 920, 20, 258, 330, 636, 130
    rows = sum(len(unit) for _, unit in UNITS)
    drawing = Drawing(width, top + rows * ROW + 44 + 8 * len(UNITS), "A function of C, its two instructions, and what they become in a hardened program")
    for number, line in enumerate(SOURCE):
        drawing.code(left, 30 + 18 * number, line)
    drawing.text(left, top - 12, "what gcc makes of it", GREY)
    drawing.text(unit_at + 8, top - 12, "unit", GREY)
    drawing.text(right, top - 12, "what rvcfi makes of that", GREY)
    y, address = top, 0x40000040
    for name, unit in UNITS:
        drawing.box(unit_at, y, width - unit_at - 16, len(unit) * ROW, "#ffffff")
        drawing.text(unit_at + 8, y + 16, name, GREY, 12)
        for before, word, instruction, why in unit:
            line = y + 16
            if before:
                drawing.code(left, line, before)
                drawing.line(left + MONO_WIDTH * len(before) + 6, line - 5, unit_at - 4, line - 5)
            else:
                drawing.box(right - 6, y + 1, width - right - 11, ROW - 2, ADDED_BACK, None)
            ink = INK if before else ADDED
            drawing.code(right, line, "%08x" % address, GREY)
            drawing.code(right + 10 * MONO_WIDTH, line, word, ink)
            drawing.code(right + 20 * MONO_WIDTH - 8, line, instruction, ink)
            drawing.text(said, line, why, ink, 12)
            y, address = y + ROW, address + 4
        y += 8
    drawing.box(left, y + 7, 14, 14, ADDED_BACK, None)
    drawing.text(left + 20, y + 19, "added. Addresses and words are hexadecimal. No instruction of the program itself writes x3, x4, x30 or x31.", GREY, 12)
    return drawing.svg()


# what lies where, from the highest address down: the first and the last byte, what it is, what may be done, its colour
NOTHING = ("", "", [], [], NOTHING_BACK)
MEMORY = [
    NOTHING,
    ("60000000", "6007ffff", ["shadow stack", "2^16 bytes for each hart; in version 1 up to 6000ffff"],
     ["load, store", "in an accepted image calls alone store here"], SHADOW_BACK),
    NOTHING,
    ("40100000", "40100007", ["eight zeros"], ["load"], "#ffffff"),
    ("40000000", "400fffff", ["code", "handlers, opening, closing, units, then zeros"], ["load, fetch"], CODE_BACK),
    NOTHING,
    ("00000000", "10000fff", ["data", "the stack of hart k, from 10000000 - k * 100000 down", "the image's data, from 00010000 on"],
     ["load, store", "by program and attacker"], DATA_BACK),
]
REACHED = 0x10000805


def memory():
    """The regions of memory."""
    x, width, top = 180, 390, 44
    heights = [18 + 20 * len(lines) if len(lines) > 1 else 28 for _, _, lines, _, _ in MEMORY]
    drawing = Drawing(920, top + sum(heights) + 54, "The regions of memory, and what may be done in each")
    drawing.text(x - 12, top - 14, "addresses, hexadecimal", GREY, 12, anchor="end")
    drawing.text(x + 12, top - 14, "what is there", GREY, 12)
    drawing.text(x + width + 14, top - 14, "what may be done", GREY, 12)
    y = top
    for (first, last, lines, uses, fill), height in zip(MEMORY, heights):
        drawing.box(x, y, width, height, fill)
        drawing.code(x - 12, y + 19, last, anchor="end")
        if len(lines) > 1:
            drawing.code(x - 12, y + height - 8, first, anchor="end")
        for number, line in enumerate(lines or ["nothing: a load, a store or a fetch stops the machine"]):
            is_name = len(lines) > 1 and number == 0
            drawing.text(x + 12, y + 19 + 20 * number, line, INK if lines else GREY, 13 if is_name else 12, is_name)
        for number, use in enumerate(uses):
            drawing.text(x + width + 14, y + 19 + 20 * number, use, size=12)
        y += height
    drawing.text(x, y + 22, "A store behind a mask begins at most 2,047 past an address below 2^28: the last byte it reaches is %08x." % REACHED, GREY, 12)
    drawing.text(x, y + 40, "The attacker writes any data before any instruction, and nothing else.", GREY, 12)
    return drawing.svg()


PICTURES = {"hardened.svg": hardened, "memory.svg": memory}


def main(words):
    if words not in ([], ["--check"]):
        sys.exit(__doc__)
    wrong = 0
    for name, drawn in PICTURES.items():
        path, content = HERE / name, drawn()
        if not words:
            path.write_text(content, encoding="utf-8")
        elif not path.exists() or path.read_text(encoding="utf-8") != content:
            print("docs/%s is not what docs/pictures.py draws" % name)
            wrong += 1
    if words:
        print("%d passed, %d failed" % (len(PICTURES) - wrong, wrong))
    return min(wrong, 1)


if __name__ == "__main__":
    sys.exit(main(sys.argv[1:]))
