"""What the benchmarks share: ways of doing a thing are timed in turns, round by round, and told in one form."""
import os
import shutil
import statistics
import subprocess
import sys
import tempfile
import time

HERE = os.path.dirname(os.path.realpath(__file__))
TREE = os.path.dirname(HERE)
PAIR = "0123456789ABCDEFFEDCBA9876543210"


def built(name, tree=TREE):
    """The program of this crate, which `rt run` leaves there."""
    path = f"{tree}/crates/{name}/out/{name}"
    if not os.path.exists(path):
        sys.exit(f"{path} isn't built: run `rt run` in {tree}/crates/{name}")
    return path


def compiled(source, folder, *more):
    """A C program of this folder."""
    target = f"{folder}/{os.path.splitext(os.path.basename(source))[0]}"
    subprocess.run([os.environ.get("CC", "cc"), "-O2", "-Wall", "-Wextra", f"{HERE}/{source}", *more, "-o", target], check=True)
    return target


def in_turns(ways, rounds):
    """What each way took in each round; who begins changes from round to round."""
    names = list(ways)
    times = {name: [] for name in names}
    for number in range(rounds):
        begin = number % len(names)
        for name in names[begin:] + names[:begin]:
            times[name].append(ways[name]())
    return times


def told(name, unit, times, scale=1.0):
    """One figure. A ratio is what the first way takes, as a part of what this way takes: by the least of both, and, round by round,
    the median, the middle half and the ends."""
    print(f"\n{name} [{unit}]\n  {'':38} {'least':>9} {'median':>9} {'greatest':>9}   ratio: by the least; median of the rounds, middle half, ends")
    ours = next(iter(times.values()))
    for way, took in times.items():
        line = f"  {way:38} {min(took) * scale:9.3f} {statistics.median(took) * scale:9.3f} {max(took) * scale:9.3f}"
        if took is not ours:
            ratios = sorted(one / other for one, other in zip(ours, took))
            quarter = len(ratios) // 4
            line += (f"   {min(ours) / min(took):.3f}; {statistics.median(ratios):.3f}, {ratios[quarter]:.3f} to {ratios[-1 - quarter]:.3f}, "
                     f"{ratios[0]:.3f} to {ratios[-1]:.3f}")
        print(line, flush=True)


def processor_time(program, order, is_right):
    """The processor seconds of a process with this on its standard input; what it wrote has to be right."""
    with tempfile.TemporaryFile() as source, tempfile.TemporaryFile() as sink:
        source.write(order)
        source.seek(0)
        child = subprocess.Popen([program], stdin=source, stdout=sink)
        _, status, used = os.wait4(child.pid, 0)
        sink.seek(0)
        written = sink.read()
        if status != 0 or not is_right(written):
            sys.exit(f"{program}: another end than wanted: {written[-200:]!r}")
        return used.ru_utime + used.ru_stime


def one_of_many(program, order, is_right, more=5):
    """The processor seconds of one order, by processes that carry it out once and so many times more."""
    def took(times):
        return processor_time(program, order * times, lambda written: is_right(written, times))
    return (took(1 + more) - took(1)) / more


def process(words, folder, source=b"", environment=None):
    """The seconds of a process from its making to its end, which has to be good, and what it wrote."""
    begin = time.perf_counter()
    done = subprocess.run(words, cwd=folder, input=source, capture_output=True, env=environment)
    took = time.perf_counter() - begin
    if done.returncode != 0:
        sys.exit(f"{words}: {done.stderr!r}")
    return took, done.stdout


def synced_copy(source, target):
    """A copy of a file, on the disk, so that no process waits for another's writes."""
    shutil.copy(source, target)
    with open(target, "rb+") as copy:
        os.fsync(copy.fileno())
