"""Commands of x917 over files, each a process, beside C processes (plain.c) that open the same files and make the same writes and
syncs, beside files of format 1, and beside an earlier program, over fresh copies of the files in memory and on a disk. Which writes
and syncs a command makes strace tells once. The folder on a disk is one of TMPDIR's."""
import os
import re
import subprocess
import tempfile

import measure
from measure import PAIR

START = "start --party BANKA --peer BANKB"
DROP = "drop --party BANKA --peer BANKB"
TAKE = "take --party BANKB"


def steps(program, words, files, source, folder):
    """What a command does to these files, in the words of plain.c."""
    trace = f"{folder}/trace"
    subprocess.run(["strace", "-f", "-y", "-qq", "-s", "0", "-e", "trace=pwrite64,write,lseek,fsync,fdatasync", "-o", trace, program, *words],
                   cwd=folder, input=source, capture_output=True, check=True)
    found, places, opened = [], {}, set()
    with open(trace) as file:
        for line in file:
            call = re.search(r"(pwrite64|write|lseek|fsync|fdatasync)\(\d+<[^>]*/([A-Z]+\.x917)[^>]*>(.*)\) += (\d+)", line)
            if not call or call[2] not in files:
                continue
            what, name, rest, answer = call[1], call[2], call[3], int(call[4])
            if what == "lseek":
                places[name] = answer
            elif what == "pwrite64":
                found.append(f"w:{name}:{rest.split(',')[-1].strip()}:{answer}")
            elif what == "write":
                found.append(f"w:{name}:{places.get(name, 0)}:{answer}")
                places[name] = places.get(name, 0) + answer
            elif name not in opened:
                opened.add(name)
                found.append(f"r:{name}")
            else:
                found.append(f"s:{name}")
    os.remove(trace)
    return found


class Folder:
    """A folder with the files before a command, each way's own, and one in which the command runs."""

    def __init__(self, work, c):
        self.work, self.c, self.kept = work, c, {}

    def keep(self, way, images):
        os.mkdir(f"{self.work}/{len(self.kept)}")
        for name, image in images.items():
            with open(f"{self.work}/{len(self.kept)}/{name}", "wb") as file:
                file.write(image)
        self.kept[way] = f"{self.work}/{len(self.kept)}", list(images)

    def fresh(self, way):
        """The files as they were before the command, and no other."""
        place, names = self.kept[way]
        for name in os.listdir(self.work):
            if name.endswith(".x917") and name not in names:
                os.remove(f"{self.work}/{name}")
        for name in names:
            measure.synced_copy(f"{place}/{name}", f"{self.work}/{name}")

    def run(self, way, words, source=b"", environment=None):
        self.fresh(way)
        return measure.process(words, self.work, source, environment)[0]


def between(folder, way, words, source, stamps):
    """The seconds from the end of a process's last read to the end of its last sync."""
    stamp = f"{folder.work}/stamp"
    folder.run(way, words, source, {**os.environ, "LD_PRELOAD": stamps, "STAMPS": stamp})
    with open(stamp) as file:
        took = float(file.read()) / 1e3
    os.remove(stamp)
    return took


def timed(name, words, ways, source, rounds, tools, where, per=1, inner=False, files=None):
    """One command. A way is a program and its files before it; the C process does what the first one does."""
    with tempfile.TemporaryDirectory(dir=where[1]) as work:
        folder = Folder(work, tools["plain"])
        for way, (program, images) in ways.items():
            folder.keep(way, images)
        first, (program, images) = next(iter(ways.items()))
        folder.fresh(first)
        listed = steps(program, words, files or list(images), source, work) if images else []
        acts = {way: lambda way=way, program=program: folder.run(way, [program, *words], source) / per for way, (program, _) in ways.items()}
        acts["C, the same writes and syncs"] = lambda: folder.run(first, [tools["plain"], *listed]) / per
        if listed:
            acts["C, a process that opens no file"] = lambda: folder.run(first, [tools["plain"]]) / per
        unit = "ms" if per == 1 else "us an entry"
        writes, syncs = sum(step[0] == "w" for step in listed), sum(step[0] == "s" for step in listed)
        measure.told(f"{name}, {where[0]}: {writes} writes and {syncs} syncs after the opening", unit, measure.in_turns(acts, rounds), 1e3 * (1 if per == 1 else 1e3))
        if inner:
            measure.told(f"{name}, {where[0]}, from the last read to the last sync", "ms", measure.in_turns({
                first: lambda: between(folder, first, [program, *words], source, tools["stamps"]),
                "C, the same writes and syncs": lambda: between(folder, first, [tools["plain"], *listed], b"", tools["stamps"])}, rounds), 1e3)


def in_format_1(image):
    """The image of a party in format 2, in format 1: the first byte of a body tells the format, and the last four are its code."""
    bodies, at = [], 16
    while image[at] == 1:
        length = int.from_bytes(image[at + 1:at + 5], "big")
        bodies.append(b"\1" + image[at + 6:at + 1 + length])
        at += 5 + length
    return image[:16] + b"".join(b"\1" + len(body).to_bytes(4, "big") + body for body in bodies) + b"\0"


class Banks:
    """BANKA with a link to send to BANKB under, in a folder in memory."""

    def __init__(self, program, folder):
        self.program, self.folder = program, folder
        for name, peer, side, seed in ("BANKA", "BANKB", "out", 1), ("BANKB", "BANKA", "in", 2):
            self(f"init --party {name} --role bank --genkey {PAIR} --genseed {seed:016X}")
            self(f"load --party {name} --peer {peer} --label K1 --side {side} --key {PAIR}")

    def __call__(self, words, source=b""):
        return measure.process([self.program, *words.split()], self.folder, source)[1]

    def sent(self, keys, taken=False):
        """So many keys that are sent and given up, and taken if they are to be; the messages."""
        texts = []
        for number in range(keys):
            texts.append(self(START))
            self(DROP)
            if taken:
                self(TAKE, texts[-1])
            elif number % 1000 == 999:
                self("purge --party BANKA")
                self("compact --party BANKA")
        return texts

    def image(self, name):
        with open(f"{self.folder}/{name}.x917", "rb") as file:
            return file.read()


def tools_in(folder):
    return {"plain": measure.compiled("plain.c", folder),
            "stamps": measure.compiled("stamps.c", folder, "-shared", "-fPIC", "-ldl")}


PLACES = ("in memory", "/dev/shm"), ("on a disk", None)


def ways_of(program, images, earlier):
    """The program over files of both formats, and an earlier one over those of format 1, the only one that it knows."""
    first = {name: in_format_1(image) for name, image in images.items()}
    ways = {"x917": (program, images), "x917, format 1": (program, first)}
    if earlier:
        ways["earlier program, format 1"] = (measure.built("x917", earlier), first)
    return ways


def turns(rounds, earlier):
    """start, drop and take over files of so many frames, ask, which only opens, and check."""
    program = measure.built("x917")
    with tempfile.TemporaryDirectory(dir="/dev/shm") as memory:
        tools = tools_in(memory)
        for frames in 42, 402:
            with tempfile.TemporaryDirectory(dir="/dev/shm") as folder:
                banks = Banks(program, folder)
                banks.sent((frames - 2) // 2)
                before = {"BANKA.x917": banks.image("BANKA")}
                text = banks(START)
                begun = {"BANKA.x917": banks.image("BANKA")}
            with tempfile.TemporaryDirectory(dir="/dev/shm") as folder:
                banks = Banks(program, folder)
                banks.sent(frames - 2, taken=True)
                text = banks(START)
                taker = {"BANKB.x917": banks.image("BANKB")}
            for where in PLACES:
                for words, images, source in (START, before, b""), (DROP, begun, b""), (TAKE, taker, text), ("ask --party BANKA --peer BANKB", before, b""):
                    timed(f"{words.split()[0]}, {frames} frames", words.split(), ways_of(program, images, earlier), source, rounds, tools, where)
        with open(f"{measure.TREE}/examples/key-service-message.csm", "rb") as file:
            text = file.read()
        ways = {"x917": (program, {})}
        if earlier:
            ways["earlier program"] = (measure.built("x917", earlier), {})
        timed("check, no file", ["check"], ways, text, rounds, tools, PLACES[1])


def compaction(rounds, earlier):
    """compact of a bank with 1,000 keys in 2,003 frames, and ask of it, which only opens."""
    program = measure.built("x917")
    with tempfile.TemporaryDirectory(dir="/dev/shm") as memory:
        tools, banks = tools_in(memory), Banks(program, memory)
        for _ in range(1000):
            banks(START)
            banks(DROP)
        images = {"BANKA.x917": banks.image("BANKA")}
        shown = banks("show --party BANKA")
        banks("compact --party BANKA")
        assert banks("show --party BANKA") == shown, "the party isn't the one that was"
        for words, inner in ("compact --party BANKA", True), ("ask --party BANKA --peer BANKB", False):
            timed(f"{words.split()[0]}, 1,000 keys", words.split(), {"x917": (program, images)}, b"", rounds, tools, PLACES[1], inner=inner)


def mirror(rounds, earlier):
    """start with a second disk, of a bank with 1 key and with 1,022."""
    program = measure.built("x917")
    for keys in 1, 1022:
        with tempfile.TemporaryDirectory(dir="/dev/shm") as memory:
            tools, banks = tools_in(memory), Banks(program, memory)
            for _ in range(keys):
                banks(START)
                banks(DROP)
            banks("show --party BANKA --mirror MIRA")
            images = {name: banks.image(name[:-5]) for name in ("BANKA.x917", "MIRA.x917")}
            timed(f"start --mirror, {keys} keys", f"{START} --mirror MIRA".split(), {"x917": (program, images)}, b"", rounds, tools, PLACES[1], inner=True)


def spool(rounds, earlier):
    """spool of 512 key service messages, each with a key."""
    program = measure.built("x917")
    with tempfile.TemporaryDirectory(dir="/dev/shm") as memory:
        tools, banks = tools_in(memory), Banks(program, memory)
        batch = banks("batch", b"".join(banks.sent(512)))
        images = {"BANKB.x917": banks.image("BANKB")}
        for where in PLACES:
            timed("spool of 512 entries", "spool --party BANKB --spool SPLB".split(), {"x917": (program, images)}, batch, rounds, tools, where,
                  per=512, files=["BANKB.x917", "SPLB.x917"])
