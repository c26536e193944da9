#!/usr/bin/env python3
"""Everything that needs no proof: tools/test_all.py [--program PATH] [--bounds PATH] [NAME ..]

Runs the scripts of reference/ and the tests of tools and documents on built programs, those of ./groute and ./grbound
where none are named, as many side by side as there are processors; NAMEs pick among them. What is left out for want of
something is told by name. The last line is `tests: N passed, N failed, N left out`.
"""
import argparse
import collections
import concurrent.futures
import os
import re
import subprocess
import sys
import tempfile
import time

ROOT = os.path.dirname(os.path.dirname(os.path.abspath(__file__)))
Part = collections.namedtuple("Part", "name words counts")
Result = collections.namedtuple("Result", "passed failed left_out text")
# What the last lines of scripts say, as pairs of how many passed and how many failed.
PASSED = re.compile(r"^(?P<passed>[0-9]+) passed, (?P<failed>[0-9]+) failed$", re.MULTILINE)
AGREE = re.compile(r"^[0-9]+ cases: (?P<passed>[0-9]+) agree, (?P<failed>[0-9]+) differ$", re.MULTILINE)
OF = re.compile(r"^(?P<passed>[0-9]+) of (?P<all>[0-9]+)$", re.MULTILINE)
RUNS = re.compile(r" workers: (?P<passed>[0-9]+) runs,|^(?P<failed>[0-9]+) faults$", re.MULTILINE)
TESTS = re.compile(r"^Ran (?P<all>[0-9]+) tests?|(?:failures|errors)=(?P<failed>[0-9]+)|skipped=(?P<left_out>[0-9]+)",
                   re.MULTILINE)


def parts(program, bounds):
    """What is run, that which takes longest first."""
    python, reference = sys.executable, os.path.join(ROOT, "reference")

    def script(name, *words):
        return [python, os.path.join(reference, f"{name}.py"), *words]

    tests = [python, os.path.join(ROOT, "tools", "test.py"), "--program", program]
    return [
        Part("compare", script("compare", "--program", program), AGREE),
        Part("tools", [*tests, *(["--bounds", bounds] if bounds else [])], TESTS),
        Part("hostile", script("hostile", program), PASSED),
        Part("workers", script("workers", "--program", program, "--times", "1"), RUNS),
        Part("batches", script("workers", "--program", program, "--times", "1", "--batch", "64"), RUNS),
        Part("bounds", script("bounds", bounds) if bounds else None, OF),
        Part("panels", script("panels", program), AGREE),
        Part("memory", script("memory", program), PASSED),
        Part("rows", script("rows", program), PASSED),
        Part("replay", None, PASSED),
    ]


def counted(counts, text):
    """How many passed, failed and were left out, by a script's lines; None where it says nothing of it."""
    found = collections.Counter()
    lines = list(counts.finditer(text))
    for line in lines:
        found.update({name: int(number) for name, number in line.groupdict().items() if number})
    if not lines:
        return None
    if "all" in counts.groupindex and "passed" in counts.groupindex:
        return found["passed"], found["all"] - found["passed"], 0
    if "all" in counts.groupindex:
        return found["all"] - found["failed"] - found["left_out"], found["failed"], found["left_out"]
    return found["passed"], found["failed"], found["left_out"]


def tried(part):
    """Runs a part in a folder of its own, which stays where something differs."""
    folder = tempfile.mkdtemp(prefix=f"groute-{part.name}-")
    begun = time.monotonic()
    done = subprocess.run(part.words, cwd=folder, check=False, text=True, errors="replace", stdin=subprocess.DEVNULL,
                          stdout=subprocess.PIPE, stderr=subprocess.STDOUT)
    passed, failed, left_out = counted(part.counts, done.stdout) or (0, 0, 0)
    if done.returncode and not failed:
        failed = 1
    kept = os.listdir(folder)
    if not kept:
        os.rmdir(folder)
    text = f"{part.name}: {passed} passed, {failed} failed, {left_out} left out, {time.monotonic() - begun:.0f} s\n"
    text += "".join(f"{line}\n" for line in done.stdout.splitlines() if line.startswith("left out: "))
    if failed:
        text += done.stdout + (f"texts on which it differs are kept in {folder}\n" if kept else "")
    return Result(passed, failed, left_out, text)


def path_of(name):
    """The path of the program that ./groute or ./grbound runs, which is built first where it has to be; else None."""
    found = subprocess.run([os.path.join(ROOT, "tools", "release.sh"), "--find", name], check=False, text=True,
                           stdout=subprocess.PIPE)
    return os.path.join(ROOT, found.stdout.strip()) if found.returncode == 0 else None


def main():
    """Runs the parts. The answer is the status."""
    parser = argparse.ArgumentParser(description=__doc__, formatter_class=argparse.RawDescriptionHelpFormatter)
    parser.add_argument("--program", metavar="PATH", type=os.path.abspath, help="a built groute")
    parser.add_argument("--bounds", metavar="PATH", type=os.path.abspath, help="a built grbound")
    parser.add_argument("names", nargs="*", metavar="NAME", help="of a part, as compare or tools")
    asked = parser.parse_args()
    program = asked.program or path_of("groute")
    if not program:
        return 1
    chosen = [part for part in parts(program, asked.bounds or path_of("grbound"))
              if not asked.names or part.name in asked.names]
    lacking = [part.name for part in chosen if part.words is None]
    results = [Result(0, 0, len(lacking), "".join(f"left out: {name}: what it runs isn't built\n" for name in lacking))]
    print(results[0].text, end="")
    with concurrent.futures.ThreadPoolExecutor(len(os.sched_getaffinity(0))) as pool:
        for done in concurrent.futures.as_completed([pool.submit(tried, part) for part in chosen if part.words]):
            results.append(done.result())
            print(done.result().text, end="", flush=True)
    passed, failed, left_out = (sum(numbers) for numbers in list(zip(*results))[:3])
    print(f"tests: {passed} passed, {failed} failed, {left_out} left out")
    return 1 if failed else 0


if __name__ == "__main__":
    sys.exit(main())
