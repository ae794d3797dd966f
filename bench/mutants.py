# Makes mutants of models and traces for bench/mutants.sh, each by its own number from the seed.
#
#   mutants.py SEED FIRST COUNT LINES DATA FOLDER [BEFORE..]
#
# LINES has command lines that name files of the folder DATA. A mutant takes one of them and changes one of its
# files. Into FOLDER goes the changed file, under the number of the mutant, and the words beside it, one a line, as
# NUMBER.args, in which {} stands for the changed file. With BEFORE.. both go there once for each, with this before
# the number.
import random
import re
import sys
from pathlib import Path

# The ends of the types of numbers, and what is past them.
ENDS = [0, 1, 127, 128, 255, 256, 2**31 - 1, 2**31, 2**32 - 1, 2**32, 2**63 - 1, 2**63, 2**64 - 1, 2**64]
ENDS += [2**127 - 1, 2**127, 2**128 - 1, 2**128, 10**50]
ODD = b"\0\t\n\r \"'\\/*()[]{}|;,.:=!?#$<>+-&%_0zZ\x7f\x80\xff"
AROUND = [(b"(", b")"), (b"[", b"]"), (b"{", b"}"), (b"par ", b" rap"), (b"sel ", b" les"), (b"[true] ", b"")]
AROUND += [(b"if true then ", b" fi"), (b"while true do ", b" od"), (b"abort ", b" with skip")]
AROUND += [(b"interrupt ", b" with skip"), (b"- ", b""), (b"! ", b""), (b"skip; ", b""), (b"delay 1; ", b"")]
WORD = re.compile(rb"[A-Za-z_]+[A-Za-z_0-9]*|[0-9]+|[^\sA-Za-z_0-9]")
NUMBER = re.compile(rb"[0-9]+")
# (past the limit of a model only now and then)
LONG = 60_000


def spot(rng, text):
    first, last = sorted((rng.randint(0, len(text)), rng.randint(0, len(text))))
    return first, min(last, first + rng.choice([1, 2, 8, 64, len(text) + 1]))


def changed(rng, text):
    text = bytearray(text)
    for _ in range(rng.choice([1, 1, 1, 2, 4, 30])):
        at = rng.randint(0, len(text))
        byte = bytes([rng.choice(ODD) if rng.random() < 0.7 else rng.randrange(256)])
        text[at : at + rng.randint(0, 1)] = byte
    return bytes(text)


def cut(rng, text):
    first, last = spot(rng, text)
    return text[:first] if rng.random() < 0.3 else text[:first] + text[last:]


def doubled(rng, text):
    first, last = spot(rng, text)
    times = rng.choice([1, 1, 1, 2, 10, 100, 1000])
    if rng.random() < 0.3:
        lines = text.splitlines(keepends=True) or [b""]
        it = rng.randrange(len(lines))
        return b"".join(lines[: it + 1] + lines[it : it + 1] * times + lines[it + 1 :])
    return text[:last] + text[first:last] * times + text[last:]


def nested(rng, text):
    found = list(WORD.finditer(text))
    if not found:
        return b"(" * 200
    it = rng.choice(found)
    before, behind = rng.choice(AROUND)
    deep = rng.choice([1, 1, 2, 3, 98, 99, 100, 101, 1000])
    return text[: it.start()] + before * deep + it.group() + behind * deep + text[it.end() :]


def renumbered(rng, text):
    found = list(NUMBER.finditer(text))
    if not found:
        return text + b"%d" % rng.choice(ENDS)
    it = rng.choice(found)
    sign = rng.choice([b"", b"", b"", b"-", b"0"])
    return text[: it.start()] + sign + b"%d" % rng.choice(ENDS) + text[it.end() :]


def reworded(rng, text):
    found = list(WORD.finditer(text))
    if len(found) < 2:
        return text + b" system"
    for _ in range(rng.choice([1, 1, 2])):
        it, other = rng.choice(found), rng.choice(found).group()
        text = text[: it.start()] + other + text[it.end() :]
    return text


def reordered(rng, text):
    lines = text.splitlines(keepends=True)
    if len(lines) < 2:
        return text + text
    one, other = rng.randrange(len(lines)), rng.randrange(len(lines))
    lines[one], lines[other] = lines[other], lines[one]
    return b"".join(lines)


WAYS = [changed, cut, doubled, nested, renumbered, reworded, reworded, renumbered, reordered]


def mutant(rng, text):
    for _ in range(rng.choice([1, 1, 1, 2, 3])):
        text = rng.choice(WAYS)(rng, text)[:LONG]
    if rng.random() < 0.0005:
        text += b" " * rng.choice([2**23 - len(text), 2**23 - len(text) + 1])
    return text


def reworded_line(rng, words):
    """The words, now and then with another number behind an option that makes no run longer."""
    places = [i for i, it in enumerate(words) if i and words[i - 1] in ("--until", "--units", "--seed", "--choices")]
    if places and rng.random() < 0.2:
        at = rng.choice(places)
        numbers = words[at].split(",")
        numbers[rng.randrange(len(numbers))] = str(rng.choice(ENDS))
        words = words[:at] + [",".join(numbers)] + words[at + 1 :]
    return words


def main():
    seed, first, count, lines, data, folder = sys.argv[1:7]
    befores = sys.argv[7:] or [""]
    data, folder = Path(data), Path(folder)
    cases = []
    for line in Path(lines).read_text().splitlines():
        words = line.split(" ")
        files = [i for i, it in enumerate(words) if (data / it).is_file()]
        named = sum(it.endswith((".poosl", ".trace")) for it in words)
        if files and len(files) == named:
            cases.append((words, files))
    for number in range(int(first), int(first) + int(count)):
        rng = random.Random(f"{seed} {number}")
        words, files = rng.choice(cases)
        at = rng.choice(files)
        text = mutant(rng, (data / words[at]).read_bytes())
        words = reworded_line(rng, words[:at] + ["{}"] + words[at + 1 :])
        for before in befores:
            name = f"{before}{number:06d}"
            (folder / name).write_bytes(text)
            (folder / f"{name}.args").write_text("".join(it + "\n" for it in words))


main()
