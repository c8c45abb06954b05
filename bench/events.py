"""Scenarios: read, played over disks in memory, audited, and played over files. In memory it is processor time, of one process
that does it once and six times; what is told is a fifth of the difference. plain_events.c, plain C, plays those without centres beside
x917; what both write has to be the same bytes."""
import os
import sys
import tempfile

import measure
import scenarios


def is_played(events):
    def right(written, times):
        ends = [line for line in written.splitlines() if line.startswith(b"done ")]
        return len(ends) == times and all(end.split()[1:4] == [b"%d" % events, b"%d" % events, b"0"] for end in ends)
    return right


def player(name, tree):
    """The program that plays scenarios in memory; earlier trees have it as another crate."""
    return next((path for path in (f"{tree}/crates/{crate}/out/{crate}" for crate in ("cases", "replay_cases")) if os.path.exists(path)),
                None) or measure.built("cases", tree)


def order_of(text):
    return f"scenario {len(text)}\n{text}".encode()


def play(program, text):
    """The seconds of an event, with its reading."""
    events = scenarios.events_of(text)
    return measure.one_of_many(program, order_of(text), is_played(events)) / events


def has_centres(text):
    return " DISTRIBUTION " in text or " TRANSLATION " in text


def written_by(program, text):
    """What a play of it writes."""
    answers, right = [], is_played(scenarios.events_of(text))
    measure.processor_time(program, order_of(text), lambda answer: answers.append(answer) or right(answer, 1))
    return answers[0]


def read_alone(program, text):
    """The same of reading it alone: its last line is bad."""
    bad = text + "?\n"
    last = b"bad line %d" % (len(text.splitlines()) + 1)
    def right(written, times):
        return written.splitlines() == [last] * times
    return measure.one_of_many(program, order_of(bad), right) / scenarios.events_of(text)


def events(rounds, earlier):
    """Each scenario, played with its reading, beside plain C and an earlier program, and read alone; all in turns."""
    programs = {"x917": player("x917", measure.TREE)}
    if earlier:
        programs["earlier program"] = player("earlier", earlier)
    with tempfile.TemporaryDirectory() as folder:
        plain = measure.compiled("plain_events.c", folder)
        ways = {}
        for name, text in scenarios.ALL.items():
            beside = programs if has_centres(text) else {**programs, "plain C": plain}
            if plain in beside.values() and written_by(plain, text) != written_by(programs["x917"], text):
                sys.exit(f"{name}: x917 and plain C write other bytes")
            for way, program in beside.items():
                ways[name, way] = lambda program=program, text=text: play(program, text)
            ways[name, "its reading"] = lambda text=text: read_alone(programs["x917"], text)
        times = measure.in_turns(ways, rounds)
    for name, text in scenarios.ALL.items():
        took = {way: times[of, way] for of, way in times if of == name}
        measure.told(f"{name}: {scenarios.events_of(text)} events", "us an event", took, 1e6)
    for two, many in zip(list(scenarios.ALL)[:6:2], list(scenarios.ALL)[1:6:2]):
        measure.told(f"{many} beside two", "us an event", {"64 banks": times[many, "x917"], "two banks": times[two, "x917"]}, 1e6)


def audits(rounds, earlier):
    """An audit of a scenario with its transcript beside the play that wrote it."""
    cases = measure.built("cases")
    for name in list(scenarios.ALL)[:4]:
        text = scenarios.ALL[name]
        count = scenarios.events_of(text)
        order = order_of(text)
        written = written_by(cases, text)
        transcript = written[:written.rfind(b"\n", 0, -1) + 1]
        whole = text.encode() + b"AUDIT -\n" + transcript
        confirmed = b"yes %d %d 0 " % (count, count)
        audit = b"audit %d\n" % len(whole) + whole
        def is_confirmed(answer, times):
            return sum(line.startswith(confirmed) for line in answer.splitlines()) == times
        measure.told(f"audit: {name}", "us an event", measure.in_turns({
            "audit": lambda: measure.one_of_many(cases, audit, is_confirmed) / count,
            "play": lambda: measure.one_of_many(cases, order, is_played(count)) / count}, rounds), 1e6)


def lines(rounds, earlier):
    """The reading of a drill, of ten times the lines beside it, and the making of its text."""
    cases = measure.built("cases")
    drills = {}
    for count in 1000, 10000:
        got = []
        measure.processor_time(cases, b"text 7 %d\n" % count, lambda answer: got.append(answer) or True)
        drills[count] = got[0]
    def reading(text):
        return measure.one_of_many(cases, b"read %d\n" % len(text) + text, lambda answer, times: len(answer.splitlines()) == times, 30) / text.count(b"\n")
    measure.told("a scenario's line, read", "ns", measure.in_turns({
        f"drill of {count} events, {drills[count].count(b'LINK') + drills[count].count(bytes([10]))} lines": lambda text=drills[count]: reading(text)
        for count in (10000, 1000)}, rounds), 1e9)
    measure.told("a drill's text, 10,000 events, made", "ms", measure.in_turns({
        "x917": lambda: measure.one_of_many(cases, b"text 7 10000\n", lambda answer, times: True, 30)}, rounds), 1e3)


def images_in(folder):
    """The files of a folder."""
    images = {}
    for name in os.listdir(folder):
        with open(f"{folder}/{name}", "rb") as file:
            images[name] = file.read()
    return images


def files(rounds, earlier):
    """x917 replay over files, by the clock. The files that it leaves are those that plain C gives."""
    text = scenarios.ALL["two banks, keys that stay"]
    count = scenarios.events_of(text)
    programs = {"x917": measure.built("x917")}
    with tempfile.TemporaryDirectory() as folder, tempfile.TemporaryDirectory(dir="/dev/shm") as ours:
        plain = measure.compiled("plain_events.c", folder)
        os.mkdir(f"{folder}/C")
        measure.process([plain, "-d", "C"], folder, order_of(text))
        measure.process([programs["x917"], "replay"], ours, text.encode())
        if images_in(ours) != images_in(f"{folder}/C"):
            sys.exit("x917 and plain C leave other files")
    if earlier:
        programs["earlier program"] = measure.built("x917", earlier)
    for where, place in ("in memory", "/dev/shm"), ("on a disk", None):
        def replayed(program, place=place):
            with tempfile.TemporaryDirectory(dir=place) as folder:
                took, written = measure.process([program, "replay"], folder, text.encode())
                assert sum(line.endswith(b" DONE") for line in written.splitlines()) == count, "not all events are done"
                return took / count
        measure.told(f"two banks, keys that stay, files {where}", "us an event", measure.in_turns(
            {way: lambda program=program: replayed(program) for way, program in programs.items()}, rounds), 1e6)
