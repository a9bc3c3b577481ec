"""Joins objects by docs/COMMANDS.md and the System V gABI alone."""


from tests.model.hardener import ABS, ABS64, ALLOC, COMMON, GOT_HI20, PROGBITS, WRITE, Relocation, Section, Source, Symbol

GLOBAL, WEAK = 1, 2


class Joined(Source):
    """Several objects as one: sections and symbols are numbered on, and each use is one of what defines its symbol's name."""

    def __init__(self, parts):
        self.sections, self.symbols, self.relocations = [], [], {}
        for part in parts:
            self.append(part)
        own = list(range(len(self.symbols)))
        which = [self.resolved(n) for n in own]
        self.merge_commons(which)
        for k, rows in self.relocations.items():
            self.relocations[k] = [row._replace(symbol=which[row.symbol]) for row in rows]
        self.add_table()
        self.find_items()

    def append(self, part):
        """An object behind the others. What is defined in a section that is not kept is defined nowhere."""
        section, symbol = len(self.sections), len(self.symbols)
        self.sections += part.sections
        for number, row in enumerate(part.symbols):
            place = row.section
            if number == 0 or place not in (ABS, COMMON):
                place = section + place if number and 0 < place < len(part.sections) and part.is_kept(place) else 0
            self.symbols.append(row._replace(section=place) if number else Symbol("", 0, 0, 0, 0))
        self.nulls = getattr(self, "nulls", set()) | {symbol}
        for k, rows in part.relocations.items():
            self.relocations[section + k] = [row._replace(symbol=symbol + row.symbol) for row in rows]

    def is_shared(self, n):
        row = self.symbols[n]
        return n not in self.nulls and row.name != "" and row.binding in (GLOBAL, WEAK)

    def definer(self, name):
        """The symbol that defines a name: the first global one that is put somewhere, then the first common, then the first weak."""
        rows = [(n, self.symbols[n]) for n in range(len(self.symbols)) if self.symbols[n].name == name and self.is_shared(n)]
        put = [(n, row) for n, row in rows if row.section not in (0, COMMON)]
        order = [n for n, row in put if row.binding == GLOBAL] + [n for n, row in rows if row.section == COMMON] + [n for n, _ in put]
        return order[0] if order else None

    def duplicate(self):
        """The name of the first symbol that defines it a second time."""
        seen = set()
        for n, row in enumerate(self.symbols):
            if self.is_shared(n) and row.binding == GLOBAL and row.section not in (0, COMMON):
                if row.name in seen:
                    return row.name
                seen.add(row.name)
        return None

    def resolved(self, n):
        if n in self.nulls:
            return 0
        found = self.definer(self.symbols[n].name) if self.is_shared(n) else None
        return n if found is None else found

    def merge_commons(self, which):
        """A common symbol that stands for itself is as large and as aligned as all that it stands for; the others take no place."""
        commons = [n for n, row in enumerate(self.symbols) if row.section == COMMON]
        merged = {n: [m for m in commons if which[m] == n] for n in commons if which[n] == n}
        for n in commons:
            row = self.symbols[n]
            all_rows = [self.symbols[m] for m in merged.get(n, [])]
            merged[n] = row._replace(value=max(r.value for r in all_rows), size=max(r.size for r in all_rows)) if all_rows else row._replace(section=0)
        for n, row in merged.items():
            self.symbols[n] = row

    def add_table(self):
        """The table of addresses: a slot for each symbol in the order of its first use by section and offset in code."""
        slots = []
        for k in sorted(self.relocations):
            for row in sorted(self.relocations[k], key=lambda row: row.offset) if self.is_code(k) else []:
                if row.kind == GOT_HI20 and row.symbol not in slots:
                    slots.append(row.symbol)
        if not slots:
            return
        table, first = len(self.sections), len(self.symbols)
        self.sections.append(Section("", PROGBITS, ALLOC | WRITE, bytes(8 * len(slots)), 8 * len(slots), 8))
        self.symbols += [Symbol("", 0, table, 8 * j, 0) for j in range(len(slots))]
        for k, rows in self.relocations.items():
            self.relocations[k] = [row._replace(symbol=first + slots.index(row.symbol)) if row.kind == GOT_HI20 else row for row in rows]
        self.relocations[table] = [Relocation(8 * j, ABS64, n, 0) for j, n in enumerate(slots)]

    def named(self, name):
        """The symbol that a name finds: what defines it, else the first that is not shared."""
        found = self.definer(name)
        if found is not None:
            return self.symbols[found]
        return next(row for n, row in enumerate(self.symbols) if row.name == name and n not in self.nulls and not self.is_shared(n))

    def undefined(self, counts):
        """The number in its object, and the object from 1, of the first symbol that is used and defined nowhere."""
        used = [row.symbol for rows in self.relocations.values() for row in rows if row.kind not in (0, 43, 51)]
        missing = sorted(n for n in used if n not in self.nulls and self.symbols[n].section == 0)
        if not missing:
            return None
        number, at = missing[0], 0
        while number >= counts[at]:
            number, at = number - counts[at], at + 1
        return number, at + 1
