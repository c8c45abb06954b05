"""The scenarios that are timed."""


def pair(number):
    """A pair of keys that no other number has, whatever the parity."""
    left = 0x0123456789ABCDEF ^ (number % 100 + 1) << 1
    return f"{left:016X}{0xFEDCBA9876543210 ^ (number // 100 + 1) << 9:016X}"


def party(name, number, role="BANK"):
    return f"PARTY {name} {role} {pair(number)} {number:016X}"


def cut(lines, most):
    """The first lines, without the rest of a round that is begun."""
    return "".join(line + "\n" for line in lines[:most])


def banks(number):
    """So many banks with names of one length, each with its neighbour."""
    names = [f"BNK{i:02}" for i in range(number)]
    lines = [party(name, i) for i, name in enumerate(names)]
    return names, lines + [f"LINK {names[i]} {names[i + 1]} K1 {pair(100 + i)}" for i in range(0, number, 2)]


def keys_that_end(number, events):
    """Banks, pair by pair in turns: a key is sent, answered, ended and answered; 1,000 records stand before they are purged."""
    names, lines = banks(number)
    most = len(lines) + events
    count = 0
    while len(lines) < most:
        count += 1
        for one, other in zip(names[::2], names[1::2]):
            lines += [f"START {one} {other}", "RECENT 1", "RECENT 1", f"END {one} {other} {one}.{one}.K1.{count}", "RECENT 1", "RECENT 1"]
        if count % 1000 == 0:
            lines += [f"PURGE {name}" for name in names]
    return cut(lines, most)


def keys_that_stay(number, events):
    """Banks, pair by pair in turns: keys are sent and answered, and stay, at most 1,000 of a pair."""
    names, lines = banks(number)
    most = len(lines) + events
    while len(lines) < most:
        for one, other in zip(names[::2], names[1::2]):
            lines += [f"START {one} {other}", "RECENT 1", "RECENT 1"]
    return cut(lines, most)


def centres(most):
    """Two banks and both centres: a key of each, in turns; 400 records stand before they are purged."""
    lines = [party("BANKA", 0), party("BANKB", 1), party("CKDX", 2, "DISTRIBUTION"), party("CKTX", 3, "TRANSLATION")]
    lines += [f"LINK {ends} C {pair(10 + i)}" for i, ends in enumerate(["CKDX BANKA", "CKDX BANKB", "BANKA CKTX", "CKTX BANKB"])]
    count = 0
    while len(lines) < most:
        count += 1
        for ask, name in ("ASK BANKA CKDX BANKB", "CKDX"), ("TRANSLATE BANKA CKTX BANKB", "CKTX"):
            lines += [ask] + ["RECENT 1"] * 4 + [f"END BANKA BANKB {name}.BANKA.C.{count}"] + ["RECENT 1"] * 2
        if count % 200 == 0:
            lines += ["PURGE BANKA", "PURGE BANKB"]
    return cut(lines, most)


def events_of(text):
    return sum(not line.startswith(("PARTY", "LINK")) for line in text.splitlines())


ALL = {
    "two banks, keys sent and ended": keys_that_end(2, 20000),
    "64 banks, keys sent and ended": keys_that_end(64, 20000),
    "two banks, 65,533 events": keys_that_end(2, 65533),
    "64 banks, 65,440 events": keys_that_end(64, 65440),
    "two banks, keys that stay": keys_that_stay(2, 3000),
    "64 banks, keys that stay": keys_that_stay(64, 3000),
    "two banks and two centres": centres(20000),
}
