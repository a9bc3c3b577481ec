#!/usr/bin/env python3
"""Draws bench/costs.svg from tables of bench/README.md, so that picture and page have the same numbers.

    python3 bench/plot.py            # writes it
    python3 bench/plot.py --check    # compares it with what it would write; the status is 1 where it differs

The tables of what each choice costs by program are those of bench/costs.py, that of all programs is of bench/overhead.py.
"""

import re
import sys
from pathlib import Path

sys.dont_write_bytecode = True
sys.path.insert(0, str(Path(__file__).resolve().parents[1]))

from docs.pictures import GREY, INK, Drawing

HERE = Path(__file__).resolve().parent


# the lines that stand before the tables, by their ends
STEPS, BYTES = "Steps, for rv64im:", "Bytes of code, for rv64im:"
ALL = "Over all 50 programs of a processor, from where to where and in the mean:"
PLAIN_BAR, ADDED_BARS, LINES = "#d5d9de", ("#0a58a8", "#3f8f3a"), "#9aa2ab"
WIDTH, MARGIN, TOP, PANELS = 920, 18, 108, (156, 546)
UNIT, MOST = 138, 2.4  # how long "once as much" is drawn; more than the most does not fit
ROW, BAR, GROUP, AFTER, BETWEEN = 15, 10, 24, 6, 40


def tables(text):
    """The tables of a page, by the line of text before each: rows of cells, the head first."""
    found, before = {}, ""
    for line in text.split("\n"):
        if line.startswith("|"):
            cells = [cell.strip().replace("`", "") for cell in line.strip("|").split("|")]
            if not re.fullmatch(r"[-:|]+", line):
                found.setdefault(before, []).append(cells)
        elif line:
            before = line
    return found


def table(found, end):
    """The table behind the line with this end."""
    matching = [rows for before, rows in found.items() if before.endswith(end)]
    if len(matching) != 1:
        sys.exit("bench/README.md has %d tables behind a line that ends in: %s" % (len(matching), end))
    return matching[0]


def by_program(rows):
    """The names of the choices, and by program what it takes without hardening and the ratios."""
    head, *rest = rows
    if head[:2] != ["program", "not hardened"]:
        sys.exit("the table by program begins otherwise: %s" % head)
    return head[2:], {name: (plain, [float(each) for each in ratios]) for name, plain, *ratios in rest}


def ranges(rows):
    """By processor and form the least, the greatest and the mean of steps, and of bytes."""
    head, *rest = rows
    found = {}
    for column in range(1, len(head), 2):
        for row in rest:
            both = [re.fullmatch(r"(\S+) to (\S+), (\S+)", cell).groups() for cell in row[column:column + 2]]
            found.setdefault(head[column].removesuffix(", steps"), {})[row[0]] = [[float(each) for each in numbers] for numbers in both]
    return found


class Plot(Drawing):
    """Two panels, of steps and of bytes, with rows of bars."""

    def panel_x(self, panel, ratio):
        if ratio > MOST:
            sys.exit("%g is more than the picture has room for" % ratio)
        return PANELS[panel] + UNIT * ratio

    def colored(self, panel, start, end, y, height, fill):
        self.box(round(self.panel_x(panel, start), 2), y, round(UNIT * (end - start), 2), height, fill, None)

    def guides(self, top, rows):
        """Lines at one and two times as much, over so many rows."""
        for panel in range(2):
            for ratio in (1, 2):
                x = self.panel_x(panel, ratio)
                self.parts.append('<line x1="%g" y1="%g" x2="%g" y2="%g" stroke="%s" stroke-dasharray="2 3"/>' % (
                    x, top - 3, x, top + rows * ROW - 2, LINES))

    def number(self, x, y, ratio, ink=INK, bold=False, is_before=False):
        """A ratio behind a place, or before it, over the lines."""
        self.box(round(x - 30 * is_before, 2), y - 1, 30, BAR + 3, "#ffffff", None)
        self.text(round(x, 2), y + BAR - 1, "%.2f" % ratio, ink, 11, bold, "end" if is_before else "start")

    def bar(self, panel, y, ratio, bold):
        self.colored(panel, 0, min(ratio, 1), y, BAR, PLAIN_BAR)
        if ratio > 1:
            self.colored(panel, 1, ratio, y, BAR, ADDED_BARS[panel])
        self.number(self.panel_x(panel, ratio) + 5, y, ratio, bold=bold)

    def span(self, panel, y, least, most, mean):
        """From the least to the most, with a mark at the mean."""
        self.colored(panel, least, most, y + 2, BAR - 4, ADDED_BARS[panel])
        self.box(round(self.panel_x(panel, mean) - 2, 2), y - 1, 4, BAR + 2, INK, None)
        self.text(self.panel_x(panel, 0), y + BAR - 1, "mean %.2f" % mean, size=11)
        self.number(self.panel_x(panel, least) - 5, y, least, GREY, is_before=True)
        self.number(self.panel_x(panel, most) + 5, y, most, GREY)


def draw_head(plot):
    plot.text(MARGIN, 26, "What hardening costs: how many times as much as the program that is not hardened", size=15, bold=True)
    plot.box(MARGIN, 38, 12, 12, PLAIN_BAR, None)
    plot.text(MARGIN + 18, 48, "the program that is not hardened", GREY, 12)
    for panel, x in enumerate((270, 290)):
        plot.box(x, 38, 12, 12, ADDED_BARS[panel], None)
    plot.text(308, 48, "what hardening adds", GREY, 12)
    plot.text(WIDTH - MARGIN, 48, "five programs, by gcc at -O2 for rv64im", GREY, 12, anchor="end")
    plot.text(MARGIN, 68, "each store alone: with a mask of its own; a list: of so many system calls (both in form plain); the other rows are forms", GREY, 12)
    for panel, what in enumerate(("steps of a run", "bytes of code")):
        plot.text(PANELS[panel], TOP - 14, what, ADDED_BARS[panel], 13, True)
        for ratio, told in ((1, "1"), (2, "2 times")):
            plot.text(plot.panel_x(panel, ratio), TOP - 14, told, GREY, 11, anchor="middle")


def draw_program(plot, y, name, choices, both):
    """A program: what it takes without hardening, and a row a choice. Answers where the next one stands."""
    plot.text(MARGIN, y + 14, name, size=13, bold=True)
    for panel, (plain, _) in enumerate(both):
        if plain:
            plot.text(PANELS[panel], y + 14, "%s not hardened" % plain, GREY, 11)
    y += GROUP
    plot.guides(y, len(choices))
    for k, choice in enumerate(choices):
        bold = choice == "plain"
        plot.text(PANELS[0] - 10, y + BAR - 1, choice, size=11, bold=bold, anchor="end")
        for panel, (_, ratios) in enumerate(both):
            plot.bar(panel, y, ratios[k], bold)
        y += ROW
    return y + AFTER


def draw_processor(plot, y, processor, spans):
    """A processor, with a row a form. Answers where the next one stands."""
    plot.text(MARGIN, y + 14, processor, size=13, bold=True)
    y += GROUP
    plot.guides(y, len(spans))
    for form, both in spans.items():
        plot.text(PANELS[0] - 10, y + BAR - 1, form, size=11, bold=form == "plain", anchor="end")
        for panel, numbers in enumerate(both):
            plot.span(panel, y, *numbers)
        y += ROW
    return y + AFTER


def drawn(text):
    """The picture of a page."""
    found = tables(text)
    (choices, steps), (also, sizes) = (by_program(table(found, end)) for end in (STEPS, BYTES))
    if choices != also or list(steps) != list(sizes):
        sys.exit("the two tables by program have different rows or columns")
    spans = ranges(table(found, ALL))
    groups = [len(choices)] * len(steps) + [len(forms) for forms in spans.values()]
    height = TOP + sum(GROUP + ROW * rows + AFTER for rows in groups) + BETWEEN + MARGIN
    plot = Plot(WIDTH, height, "What hardening costs: steps and bytes of code, by program and choice")
    draw_head(plot)
    y = TOP
    for name in steps:
        y = draw_program(plot, y, name, choices, (steps[name], sizes[name]))
    plot.line(MARGIN, y + 6, WIDTH - MARGIN, y + 6)
    plot.text(MARGIN, y + 28, "All 50 programs of a processor, the five by two compilers at five levels: the least, the greatest, and the mean (black)",
              GREY, 12)
    y += BETWEEN
    for processor, forms in spans.items():
        y = draw_processor(plot, y, processor, forms)
    return plot.svg()


def main(words):
    if words not in ([], ["--check"]):
        sys.exit(__doc__)
    path, content = HERE / "costs.svg", drawn((HERE / "README.md").read_text(encoding="utf-8"))
    if not words:
        path.write_text(content, encoding="utf-8")
        return 0
    wrong = not path.exists() or path.read_text(encoding="utf-8") != content
    if wrong:
        print("bench/costs.svg is not what bench/plot.py draws")
    print("%d passed, %d failed" % (not wrong, wrong))
    return int(wrong)


if __name__ == "__main__":
    sys.exit(main(sys.argv[1:]))
