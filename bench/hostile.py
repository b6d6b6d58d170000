#!/usr/bin/env python3
"""Measures the program on registries and tags that are made against it.

Usage: hostile.py PROGRAM [--count N] [--only WORD] [--seconds S]

For each registry of `hostile_registries.py`, by the counts N, 2N and 4N less one (25,000, 50,000 and 99,999): processor
time, the least of three runs, and memory of `check`, of `show` of a short tag, and of `upgrade` to itself and to the
registry after it. Then the time of a tag of about 1,024 bytes: of a line of `canon`, where no two lines are equal, and of
`explain`, `equal` and `extlang` beside the same command with a short tag; and the memory of `show` of it, by the
registries and by IANA's. The last line tells how many figures are past a limit: 4 seconds or 300 MB for a registry, 1 millisecond
for a tag and 0.05 more for each step that `explain` prints with the tag to which it leads, or more than 2.6 times the time
for twice the count. `show` of a tag may take 300 MB, and 10 MB and three times the registry's bytes more than `show` of a
short one. What is past a limit is measured again, a few times, and the least counts, since the times of a host
vary. Ends with 1 if any is past a limit then.
"""

import argparse
import os
import resource
import subprocess
import sys
import tempfile
import time

from hostile_registries import MOST_VARIANTS, REGISTRIES, name, short_variant, turning

MOST_SECONDS = 4.0
MOST_MEGABYTES = 300
MOST_MEGABYTES_MORE = 10
MOST_RATIO = 2.6
MOST_MILLISECONDS = 1.0
MOST_MILLISECONDS_A_STEP = 0.05
# A shorter time says little of how it grows.
LEAST_SECONDS = 0.2
LINES = 3000
RUNS = 9
# Times on a virtual machine vary, so that of a longer run is the least of so many; and what is past a limit is measured
# again so many times, after some seconds.
TRIES = 3
MORE_TRIES = 5
PAUSE = 4
IANA = os.path.join(os.path.dirname(os.path.dirname(os.path.abspath(__file__))), "examples", "iana-2025-05-15.txt")
# By registries of this count, what a command takes is told apart from what its start takes.
FEW = 20


def run(words, given, seconds):
    """The status, the processor seconds, the megabytes, the last line and the number of lines of a run; no status where it
    took too long."""
    with tempfile.TemporaryFile() as output, tempfile.TemporaryFile() as source:
        source.write(given)
        source.seek(0)
        process = subprocess.Popen(words, stdin=source, stdout=output, stderr=subprocess.STDOUT)
        while True:
            done, status, used = os.wait4(process.pid, os.WNOHANG)
            if done:
                break
            with open(f"/proc/{process.pid}/stat", encoding="ascii") as file:
                ticks = sum(map(int, file.read().rsplit(")", 1)[1].split()[11:13]))
            if ticks / os.sysconf("SC_CLK_TCK") > seconds:
                process.kill()
                _, _, used = os.wait4(process.pid, 0)
                process.returncode = 0
                return None, seconds, used.ru_maxrss / 1024, "no answer", 0
            time.sleep(0.005)
        process.returncode = os.waitstatus_to_exitcode(status)
        # The output is not held in memory: what is held here counts as memory of the next run.
        output.seek(0)
        last, count = b"", 0
        for count, last in enumerate(output, 1):
            pass
        answer = last.decode("utf-8", "replace").rstrip("\n")[:40]
        return process.returncode, used.ru_utime + used.ru_stime, used.ru_maxrss / 1024, answer, count


def path_of(folder, title, count):
    """The file of a registry, which is written once; by another process, since a run's memory is no less than its parent's."""
    path = os.path.join(folder, f"{title}-{count}")
    if not os.path.exists(path):
        maker = os.path.join(os.path.dirname(os.path.abspath(__file__)), "hostile_registries.py")
        with open(path, "wb") as file:
            subprocess.run([sys.executable, maker, title, str(count)], stdout=file, check=True)
    return path


def one_row(options, folder, command, title, other):
    """The times of a command by the three counts, the greatest memory and the last answer."""
    times, memory, answer = [], 0, ""
    for count in (options.count, 2 * options.count, 4 * options.count - 1):
        one = path_of(folder, title, count)
        words = {
            "check": ["check", one],
            "show": ["show", one, "aaa"],
            "itself": ["upgrade", one, one],
            "next": ["upgrade", one, path_of(folder, other, count)],
        }[command]
        status, seconds, used, answer, _ = run([options.program] + words, b"", options.seconds)
        if status is not None and seconds >= LEAST_SECONDS:
            again = [run([options.program] + words, b"", options.seconds)[1] for _ in range(TRIES - 1)]
            seconds = min([seconds] + again)
        times.append(seconds)
        memory = max(memory, used)
        if status is None or status not in ((0, 1) if command == "show" else (0, 2)):
            answer = answer or f"status {status}"
            break
    return times, memory, answer


def ratio_of(times):
    """The greatest ratio of a time to that of half the count, where that is long enough to tell."""
    return max((b / a for a, b in zip(times, times[1:]) if a >= LEAST_SECONDS), default=0)


def past_limits(times, memory, answer):
    """What is past a limit of these times, of this memory and of a run that gave no answer."""
    tests = (
        (times[-1] > MOST_SECONDS, f"{times[-1]:.1f} s"),
        (memory > MOST_MEGABYTES, f"{memory:.0f} MB"),
        (ratio_of(times) > MOST_RATIO, f"{ratio_of(times):.1f} times"),
        (len(times) < 3, answer),
    )
    return [what for passed, what in tests if passed]


def registries(options, folder, found):
    """The table of `check` and `upgrade`."""
    every = list(REGISTRIES)
    print(f"{'registry':26}{'command':8}{'MB':>6}{'n s':>8}{'2n s':>8}{'4n s':>8}{'ratio':>7}{'MB used':>9}  answer")
    for place, title in enumerate(every):
        if options.only not in title:
            continue
        other = every[(place + 1) % len(every)]
        for command in ("check", "show", "itself", "next"):
            times, memory, answer = one_row(options, folder, command, title, other)
            for _ in range(MORE_TRIES):
                if not past_limits(times, memory, answer):
                    break
                time.sleep(PAUSE)
                again, _, answer = one_row(options, folder, command, title, other)
                times = [min(pair) for pair in zip(times, again)] if len(times) == len(again) else max(times, again, key=len)
            size = os.path.getsize(path_of(folder, title, 4 * options.count - 1)) / 1e6
            print(f"{title:26}{command:8}{size:6.1f}" + "".join(f"{t:8.2f}" for t in times) + "        " * (3 - len(times))
                  + f"{ratio_of(times):7.1f}{memory:9.0f}  {answer}", flush=True)
            found.extend(f"{title} {command}: {what}" for what in past_limits(times, memory, answer))
        for each in os.listdir(folder):
            if each.rsplit("-", 1)[0] != other:
                os.remove(os.path.join(folder, each))


def long_tags():
    """Tags of about 1,024 bytes, each by a registry's title and count, or by IANA's file, and by what is put into it to make it another."""
    chained = "aaa" + "".join("-" + short_variant(n) for n in range(MOST_VARIANTS - 2))
    few = FEW
    return {
        "first of a chain": ("chain-rising", 99999, "aaaaa-x{}", ""),
        "variants, each first of a chain": ("chains-in-values", 99999, chained + "-x{}", ""),
        "variants that turn in turn": ("turns-in-values", few, turning(2) + "-x{}", ""),
        "the same, 100 Prefixes": ("turns-in-values-100", 99999, turning(2) + "-x{}", ""),
        "the same, 1,000 Prefixes": ("turns-in-values-1000", 99999, turning(2) + "-x{}", ""),
        "the same, 3,700 Prefixes": ("turns-in-values-3700", 99999, turning(2) + "-x{}", ""),
        "the same in a t extension": ("turns-in-values", few, "aaa-t-" + turning(4) + "-x{}", ""),
        "variants that stay": ("long-values", few, chained + "-x{}", ""),
        "keywords of one key": ("long-values", few, "aaa-u" + "-aa" * 335 + "-x{}", ""),
        "keywords in falling order": ("long-values", few, "aaa-u" + "".join(
            f"-{chr(122 - n // 26)}{chr(122 - n % 26)}" for n in range(335)) + "-x{}", ""),
        "the same by IANA's registry": (IANA, None, "en-u" + "".join(
            f"-{chr(122 - n // 26)}{chr(122 - n % 26)}" for n in range(334)) + "-x{}", ""),
        "attributes in falling order": ("long-values", few, "aaa-u" + "".join("-" + name(17575 - n, 3) for n in range(250)) + "-x{}", ""),
        "types of a keyword": ("long-values", few, "aaa-u-aa" + "-aaa" * 250 + "-x{}", ""),
        "extensions in falling order": ("long-values", few, "aaa" + "".join(
            f"-{s}" + "-aaaaaaaa" * 3 for s in "zywvtsrqponmlkjihgfedcba9876543210" if s not in "tu") + "-x{}", ""),
        "subtags of an extension": ("long-values", few, "aaa-a" + "-aa" * 335 + "-x{}", ""),
        "fields in falling order": ("long-values", few, "aaa-t" + "".join(
            f"-{chr(122 - n // 10)}{9 - n % 10}-aaa" for n in range(140)) + "-x{}", ""),
        "private use": ("long-values", few, "x" + "-a" * 505 + "-{}", ""),
        "whole tags with values": ("long-tags", 99999, "aaa" + "".join(
            "-" + short_variant(n) for n in range(MOST_VARIANTS - 2)) + "-0alo-0ap{}", "whole"),
    }


def lines_of(tag, by):
    """Lines that differ, of a tag with a place for three characters or, of a whole tag, for one letter."""
    if by == "whole":
        return [tag.format(letter) for letter in "klmnopqrstuvwxyz"]
    return [tag.format(("-" if "x-" not in tag[:2] else "") + name(n, 3)) for n in range(LINES)]


def least(options, words):
    """The least of some runs."""
    return min(run([options.program] + words, b"", options.seconds)[1] for _ in range(RUNS))


def tags(options, folder, found):
    """The table of tags."""
    print(f"\n{'tag':34}{'bytes':>6}{'canon ms':>10}{'explain':>10}{'equal':>10}{'extlang':>10}{'show MB':>10}  answer")
    for title, (registry, count, tag, by) in long_tags().items():
        if options.only not in title:
            continue
        path = path_of(folder, registry, count) if count else registry
        lines = lines_of(tag, by)
        steps = run([options.program, "explain", path, lines[0]], b"", options.seconds)[4]
        limits = [MOST_MILLISECONDS, MOST_MILLISECONDS + steps * MOST_MILLISECONDS_A_STEP, MOST_MILLISECONDS, MOST_MILLISECONDS]
        figures, answer = figures_of(options, path, lines, count)
        for _ in range(MORE_TRIES):
            if not any(figure > limit for figure, limit in zip(figures, limits)):
                break
            time.sleep(PAUSE)
            again, _ = figures_of(options, path, lines, count)
            figures = [min(pair) for pair in zip(figures, again)]
        short, memory = (run([options.program, "show", path, it], b"", options.seconds)[2] for it in ("aaa", lines[0]))
        print(f"{title:34}{len(lines[0]):6}" + "".join(f"{it:10.3f}" for it in figures) + f"{memory:10.0f}  {answer}", flush=True)
        if memory > min(MOST_MEGABYTES, short + MOST_MEGABYTES_MORE + 3 * os.path.getsize(path) / 1e6):
            found.append(f"show of {title}: {memory:.0f} MB")
        for what, figure, limit in zip(("canon", "explain", "equal", "extlang"), figures, limits):
            if figure > limit:
                found.append(f"{what} of {title}: {figure:.2f} ms")


def figures_of(options, path, lines, count):
    """The milliseconds of a line of `canon`, and of `explain`, `equal` and `extlang`, start taken off; and an answer."""
    many = LINES // len(lines) * lines
    start = least(options, ["canon", path])
    given = "".join(line + "\n" for line in many).encode()
    runs = [run([options.program, "canon", path], given, options.seconds) for _ in range(3)]
    figures = [1000 * (min(it[1] for it in runs) - start) / len(many)]
    first, last = lines[0], lines[-1]
    for words in (["explain", path, first], ["equal", path, first, last], ["extlang", path, first]):
        short = words[:2] + ["aaa"] * (len(words) - 2)
        figures.append(1000 * (least(options, words) - least(options, short)) if count == FEW else float("nan"))
    return figures, runs[0][3]


def main():
    parser = argparse.ArgumentParser()
    parser.add_argument("program")
    parser.add_argument("--count", type=int, default=25000)
    parser.add_argument("--only", default="")
    parser.add_argument("--seconds", type=float, default=30)
    options = parser.parse_args()
    resource.setrlimit(resource.RLIMIT_CORE, (0, 0))
    found = []
    with tempfile.TemporaryDirectory() as folder:
        registries(options, folder, found)
        tags(options, folder, found)
    for one in found:
        print("past a limit: " + one)
    print(f"{len(found)} past a limit")
    return 1 if found else 0


if __name__ == "__main__":
    sys.exit(main())
