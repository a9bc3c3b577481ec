"""The kinds of cases: which file of a sample is turned, and which commands are asked about it."""

from typing import List, NamedTuple

from tests.fuzz import samples
from tests.fuzz.asked import COMMANDS
from tests.fuzz.turns import IMAGE, OBJECT, TEXT, turned
from tests.shared.forms import most_steps

STEPS = [b"0", b"1", b"10", b"100", b"1000", b"3000", b"20000"]
WORDS = [b"", b"-", b"--", b"-x", b"none", b"absent", b"folder", b"0", b"1000000001", b"01", b"+1", b"-1", b" 1", b"9" * 40, b"\xff",
         b"verify", b"rewrite", b"n" * 300, b"n" * 5000, b"folder/none", b"object/none", b"demo", b"-h", b"--help", b"-V", b"--version",
         b"harden", b"link", b"compare-link"] + samples.FORMS + [b"Plain", b"harts-"]
HELP, VERSION = {b"-h", b"--help"}, {b"-V", b"--version"}
MADE = [b"new.img", b"new.graph", b"new.map"]


class Way(NamedTuple):
    """How objects are hardened and compared: by which command, in which form, and which objects."""
    command: bytes
    form: bytes
    objects: List[bytes]

    def hardens(self, entry, policy_name):
        """The words that harden them."""
        if self.command == b"link":
            return [b"link", self.form, entry, policy_name] + MADE + self.objects
        first = [b"rewrite"] if self.command == b"rewrite" else [b"harden", self.form]
        return first + self.objects + [entry, policy_name] + MADE

    def compares(self, entry, policy_name, image, map_file, count):
        """The words that compare them with an image."""
        if self.command == b"link":
            return [b"compare-link", entry, policy_name, image, map_file, b"input", count] + self.objects
        return [b"compare"] + self.objects + [entry, policy_name, image, map_file, b"input", count]

    def most_steps(self, count):
        """How many steps an image in the form takes at most for so many of its program's."""
        return most_steps(self.form.decode(), count)


def way_of(case):
    """A way to harden the case's object: by `rewrite`, in a form, or joined, by itself or with another one."""
    command = case.draw.choice([b"rewrite", b"harden", b"harden", b"link"])
    form = b"plain" if command == b"rewrite" else case.draw.choice(samples.FORMS)
    more = case.draw.choice([[], [], [b"other"], [b"object"]]) if command == b"link" else []
    return Way(command, form, [b"object"] + more)


def laid_out(case, sample, other):
    """Writes the files of a sample and of a run of it, and another object; what an object that is not hardened has not is empty."""
    case.put(b"object", sample.object)
    case.put(b"other", other.object)
    case.put(b"policy", sample.policy or b"rvcfi-policy 1\nend\n")
    for name, content in ((b"image", sample.image), (b"graph", sample.graph), (b"map", sample.map)):
        case.put(name, content or b"")
    case.put(b"input", samples.INPUT[:case.draw.randrange(len(samples.INPUT) + 1)])
    case.put(b"script", samples.script_of(case.draw))


def turn(case, name, turns):
    case.put(name, turned(case.draw, case.files[name], turns))


def policy(case):
    return case.draw.choice([b"none", b"none", b"none", b"policy"])


def steps(case):
    return case.draw.choice(STEPS)


def compared(case, sample, policy_name=None):
    """The object as it is now beside the sample's own image."""
    policy_name = policy_name or (b"policy" if sample.is_listed else b"none")
    way = Way(case.draw.choice([b"harden", b"harden", b"link"]), sample.form, [b"object"])
    case.ask(*way.compares(sample.entry, policy_name, b"image", b"map", steps(case)))


def asked_of_pair(case, image, graph):
    """A pair is verified and run, and both tell the same of a pair that is not accepted. Whether it is accepted."""
    verdict = case.ask(b"verify", image, graph)
    script, given = case.draw.choice([b"none", b"script"]), case.draw.choice([b"none", b"input"])
    ran = case.ask(b"run", image, graph, script, given, steps(case))
    if ran.output.startswith(b"refused 26 "):
        case.must(verdict.output[:10] not in (b"refused 22", b"refused 23"), "harts are refused before the pair")
    elif verdict.status == 0:
        case.must(ran.status != 1, "a pair that is accepted is not run")
    else:
        case.must(ran[:2] == verdict[:2], "verify and run tell two things of a pair")
    return verdict.status == 0


def asked_of_made(case, way, policy_name, entry):
    """What was made is accepted, and does not differ from its objects; where the program ends, its image's run does."""
    case.must(asked_of_pair(case, MADE[0], MADE[1]), "what was hardened is not accepted")
    count = steps(case)
    answer = case.ask(*way.compares(entry, policy_name, MADE[0], MADE[2], count))
    case.must(answer.status != 1, "compare refuses what was hardened, or it differs")
    if answer.status == 0:
        ran = case.ask(b"run", MADE[0], MADE[1], b"none", b"input", b"%d" % way.most_steps(int(count)))
        case.must(ran.status in (0, 11), "the program ends, and its image's run does not")


def objects_turned(case, sample):
    turn(case, b"object", OBJECT)
    way, chosen = way_of(case), policy(case)
    if case.ask(*way.hardens(sample.entry, chosen)).status == 0:
        asked_of_made(case, way, chosen, sample.entry)
    elif case.draw.random() < 0.3:
        compared(case, sample, chosen)


def data_shared(case, sample):
    """An object whose sections of data are the same bytes of the file, and more than an image has room for: it is refused
    before a byte of them is copied, as the bounds on time and memory ask of each call."""
    case.put(b"object", samples.families.overlapping_data(case.draw.randrange(100 << 10, 2 << 20)))
    call = case.ask(b"rewrite", b"object", b"f", b"none", *MADE)
    case.must(call.output.startswith(b"refused 20 DataTooLarge "), "too much data is not refused")


def images_turned(case, sample):
    turn(case, b"image", IMAGE)
    if case.draw.random() < 0.1:
        turn(case, b"graph", TEXT)
    asked_of_pair(case, b"image", b"graph")
    if case.draw.random() < 0.5:
        compared(case, sample)


def graphs_turned(case, sample):
    turn(case, b"graph", TEXT)
    asked_of_pair(case, b"image", b"graph")


def maps_turned(case, sample):
    turn(case, b"map", TEXT)
    if case.draw.random() < 0.2:
        turn(case, b"object", OBJECT)
    compared(case, sample)


def policies_turned(case, sample):
    turn(case, b"policy", TEXT)
    way = way_of(case)
    if case.ask(*way.hardens(sample.entry, b"policy")).status == 0:
        asked_of_made(case, way, b"policy", sample.entry)
    else:
        compared(case, sample, b"policy")


def scripts_turned(case, sample):
    turn(case, b"script", TEXT)
    case.ask(b"run", b"image", b"graph", b"script", b"input", steps(case))


def asks_text(words):
    """Whether the words ask for help or for the version, and for nothing else."""
    alone = len(words) == 1 and words[0] in HELP | VERSION
    return alone or len(words) == 2 and words[0] in COMMANDS + (b"demo",) and words[1] in HELP


def demonstrates(words):
    """Whether the words may ask for a demonstration, which reads no file and takes long for its few words."""
    return words[:1] == [b"demo"] and any(word.isdigit() for word in words)


def words_turned(case, sample):
    draw = case.draw
    way = way_of(case)
    words = draw.choice([way.hardens(sample.entry, policy(case)), [b"verify", b"image", b"graph"],
                         [b"run", b"image", b"graph", b"script", b"input", steps(case)],
                         way.compares(sample.entry, b"none", b"image", b"map", steps(case))])
    for _ in range(draw.choice([1, 1, 2, 4])):
        at = draw.randrange(len(words) + 1)
        word = draw.choice(WORDS + words + samples.entries(sample.object))
        words[at:at + draw.choice([0, 1, 1, 1])] = draw.choice([[word], [word], [word], []])
    if not asks_text(words) and not demonstrates(words):
        case.ask(*words)


KINDS = {objects_turned: 33, data_shared: 1, images_turned: 22, graphs_turned: 14, maps_turned: 10, policies_turned: 8, scripts_turned: 7,
         words_turned: 5}


def is_usable(kind, sample):
    """Whether a sample has what a kind of case turns."""
    if kind is policies_turned:
        return sample.policy is not None and (b"site" in sample.policy or b"calls" in sample.policy)
    return kind is objects_turned or sample.image is not None


def turned_case(case, all_samples):
    """A kind of case and a sample are drawn, and the sample's files are turned and asked about."""
    kind, = case.draw.choices(list(KINDS), list(KINDS.values()))
    usable = [it for it in all_samples if is_usable(kind, it)]
    sample, = case.draw.choices(usable, [1 / (samples.USUAL + len(it.object) + len(it.image or b"")) for it in usable])
    case.figures.cases[kind.__name__.replace("_turned", "")] += 1
    laid_out(case, sample, case.draw.choice([it for it in usable if len(it.object) < samples.USUAL] or [sample]))
    kind(case, sample)
