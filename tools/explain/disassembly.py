"""Instructions as objdump prints them, where one is there."""

import re
import shutil
import subprocess

OBJDUMPS = ["riscv64-linux-gnu-objdump", "riscv64-unknown-elf-objdump"]
INSTRUCTION = re.compile(r"^ *([0-9a-f]+):\t[0-9a-f]+ *\t(.*)$")
RELOCATION = re.compile(r"^\t+[0-9a-f]+: (R_RISCV_\S+)\t(\S+)")
OWN_LABEL = re.compile(r"<\.L[^>]*>")
HEADING = "Disassembly of section "


class Disassembly:
    """The text of each instruction of an object by its place; empty where there is no objdump."""

    def __init__(self, path, names, own_names):
        self.texts, self.own_names = {}, own_names
        objdump = next((name for name in OBJDUMPS if shutil.which(name)), None)
        self.is_there = objdump is not None
        if objdump:
            done = subprocess.run([objdump, "-dr", path], stdout=subprocess.PIPE, stderr=subprocess.DEVNULL, check=False)
            self.read(done.stdout.decode("utf-8", "replace"), names)

    def read(self, text, names):
        section, last = 0, None
        for line in text.splitlines():
            if line.startswith(HEADING):
                # objdump goes through the sections in their order, so of equal names the next one is meant
                section = self.next_named(names, line[len(HEADING):].rstrip(":"), section)
            found = INSTRUCTION.match(line)
            if found:
                last = section, int(found.group(1), 16)
                self.texts[last] = " ".join(OWN_LABEL.sub("", found.group(2).split("#")[0]).split())
            found = RELOCATION.match(line)
            if found and last and found.group(1) != "R_RISCV_RELAX":
                named = self.own_names.get((last, found.group(2).split("+")[0]), found.group(2))
                self.texts[last] += " [%s %s]" % (found.group(1)[len("R_RISCV_"):], named)

    @staticmethod
    def next_named(names, name, after):
        found = [number for number in range(after + 1, len(names)) if names[number] == name]
        return found[0] if found else after

    def text(self, place, word=None):
        """An instruction's text, else its word."""
        if place in self.texts:
            return self.texts[place]
        return "the word %08x" % word if word is not None else "no instruction"
