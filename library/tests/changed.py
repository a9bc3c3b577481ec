"""Pairs that are drawn: each is one of the tutorial's, one that has every kind of unit, or a lean one, with one byte, word, line or length
changed."""

import random
import struct
from pathlib import Path

from bench import images
from bench.lean_images import lean_pair
from tests.model import worked

PAGE, HEADERS, CODE = 0x1000, 232, 0x40000000
MOST_CODE = 1 << 18  # words of code at most
UNITS = 16  # words before the first unit, of an image for one hart
PAIRS = Path(__file__).resolve().parent / "pairs"
LINES = [b"", b"end", b"class 00001", b"class 00002 4000042c", b"edge 40000968 40000758", b"call 4000005c 400002a0", b"calls 63 64 93",
         b"calls 64 63", b"calls 2048", b"rvcfi-graph 2", b"site 400006fc jump 00001", b"site 400006fc call 00002", b"code 40000000 00000978",
         b"rvcfi-graph 3", b"leaf 40000070 40000090", b"callclass 00001 4000007c"]
WORDS = [0x00000073, 0x00100073, 0x00008067, 0x00000013, 0x000F8067, 0x00001037, 0x00002037, 0xFFFFFFFF, 0]


def recorded(name):
    return (PAIRS / (name + ".img")).read_bytes(), (PAIRS / (name + ".graph")).read_bytes()


def starts():
    """The pairs that are changed: all of them are accepted."""
    image, graph, _ = images.pair(2048, 64, grouped=True)
    built = [worked.shared(), worked.q(1), worked.apart(1)]
    lean = [recorded("leaf"), lean_pair(2048, 64)[:2]]
    return [recorded("visitors"), recorded("plugin"), (image, graph), *lean] + [(each.image, each.graph) for each in built]


def flipped(rng, content, low, high):
    """One bit of a byte is another one, or the byte."""
    at, out = rng.randrange(low, min(high, len(content))), bytearray(content)
    out[at] = out[at] ^ 1 << rng.randrange(8) if rng.random() < 0.7 else rng.randrange(256)
    return bytes(out)


def code_byte(rng, image, graph):
    return flipped(rng, image, PAGE, PAGE + struct.unpack_from("<Q", image, 152)[0]), graph


def code_word(rng, image, graph):
    """A word of the code becomes another one, or that of another place."""
    words = struct.unpack_from("<Q", image, 152)[0] // 4
    at, out = PAGE + 4 * rng.randrange(words), bytearray(image)
    other = rng.choice(WORDS) if rng.random() < 0.5 else struct.unpack_from("<I", image, PAGE + 4 * rng.randrange(words))[0]
    struct.pack_into("<I", out, at, other)
    return bytes(out), graph


def header_byte(rng, image, graph):
    return flipped(rng, image, 0, HEADERS), graph


def other_byte(rng, image, graph):
    """A byte of padding or data."""
    return flipped(rng, image, HEADERS, len(image)), graph


def image_length(rng, image, graph):
    by = rng.choice([1, 1, 8, rng.randrange(1, len(image))])
    return (image[:-by] if rng.random() < 0.6 else image + bytes(by)), graph


def graph_byte(rng, image, graph):
    return image, flipped(rng, graph, 0, len(graph))


def graph_code(rng, image, graph):
    """The length of the code becomes another one."""
    lines = graph.split(b"\n")
    lines[1] = b"code 40000000 %08x" % (4 * rng.randrange(MOST_CODE + 2))
    return image, b"\n".join(lines)


def graph_digit(rng, image, graph):
    """A digit becomes another one."""
    at, out = rng.choice([k for k, byte in enumerate(graph) if byte in b"0123456789abcdef"]), bytearray(graph)
    out[at] = rng.choice(b"0123456789abcdef")
    return image, bytes(out)


def graph_length(rng, image, graph):
    by = rng.choice([1, rng.randrange(1, len(graph))])
    return image, (graph[:-by] if rng.random() < 0.7 else graph + rng.choice([b"\n", b" ", b"end\n", bytes(by)]))


def graph_line(rng, image, graph):
    """A line is left out, comes twice, comes elsewhere, or becomes another one."""
    lines = graph.split(b"\n")
    at, to = rng.randrange(len(lines) - 1), rng.randrange(len(lines) - 1)
    turn = rng.randrange(4)
    if turn == 0:
        del lines[at]
    elif turn == 1:
        lines.insert(at, lines[at])
    elif turn == 2:
        lines.insert(to, lines.pop(at))
    else:
        lines[at] = rng.choice(LINES)
    return image, b"\n".join(lines)


def code_end(rng, image, graph):
    """The last word of the code becomes another one."""
    at, out = PAGE + struct.unpack_from("<Q", image, 152)[0] - 4, bytearray(image)
    struct.pack_into("<I", out, at, rng.choice(WORDS))
    return bytes(out), graph


def code_gate(rng, image, graph):
    """A word of the code becomes the gate of a class."""
    words, out = struct.unpack_from("<Q", image, 152)[0] // 4, bytearray(image)
    struct.pack_into("<I", out, PAGE + 4 * rng.randrange(UNITS, words), rng.randrange(1, 3) << 12 | 0x37)
    return bytes(out), graph


def graph_transfer(rng, image, graph):
    """A line of a transfer is left out, or one comes where it keeps the order."""
    lines = graph.split(b"\n")
    at = [k for k, line in enumerate(lines) if line.split(b" ")[0] in (b"site", b"edge", b"call")]
    if rng.random() < 0.3:
        del lines[rng.choice(at)]
        return image, b"\n".join(lines)
    code = struct.unpack_from("<Q", image, 152)[0] // 4
    start, to = (b"%08x" % (CODE + 4 * rng.randrange(code)) for _ in range(2))
    line = rng.choice([b"edge %s %s" % (start, to), b"call %s %s" % (start, to), b"site %s call 00001" % start])
    behind = [k for k in at if lines[k].split(b" ")[1] < start]
    lines.insert(max(behind, default=at[0] - 1) + 1, line)
    return image, b"\n".join(lines)


def graph_target(rng, image, graph):
    """A target of a class, or of a transfer, becomes that of another line."""
    words = graph.replace(b"\n", b" \n ").split(b" ")
    at = [k for k, word in enumerate(words) if len(word) == 8 and k > 6]
    words[rng.choice(at)] = words[rng.choice(at)]
    return image, b" ".join(words).replace(b" \n ", b"\n")


CHANGES = [code_byte, code_byte, code_word, code_word, code_end, code_gate, header_byte, other_byte, image_length, graph_byte, graph_code,
           graph_digit, graph_length, graph_line, graph_transfer, graph_transfer, graph_target]


def drawn(count, seed):
    """So many changed pairs, each with what was changed."""
    rng, pairs = random.Random(seed), starts()
    for _ in range(count):
        change = rng.choice(CHANGES)
        yield (change.__name__, *change(rng, *rng.choice(pairs)))
