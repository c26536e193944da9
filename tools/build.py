#!/usr/bin/env python3
"""Proves and builds programs: tools/build.py [--anew] [PROGRAM ..], else groute

What a program's crate stands on is proved, and nothing else: lowest crates first, as many side by side as there are
processors and memory for, those first that the longest chain of crates waits for. Each is proved in a folder of its own
below one beside the repository that has its name and .build, since of two runs of rt that share a crate one waits. What
is proved stays, so that a build that was stopped goes on where it was; --anew begins from nothing. A second build waits
for the first. How far it is, crate by crate, it tells once a minute on standard error where that is no regular file.
The prover's words go to build.log. The status is 0 where the programs are there.
"""
import argparse
import fcntl
import os
import re
import shutil
import stat
import subprocess
import sys
import threading
import time

ROOT = os.path.dirname(os.path.dirname(os.path.abspath(__file__)))
LOG = os.path.join(ROOT, "build.log")
APART = f"{ROOT}.build"
PROGRAMS = ["groute", "grbound"]
PARTS = ["src", "specs", "proofs"]
GIGABYTES = 3       # what a proof takes of memory, but for few
MANY = 20           # of a process that holds so many crates copies take longer to make than they save
RATE = 0.009        # processor seconds that a byte of code takes, until some are measured


def folder_of(name, root=ROOT):
    """Where a crate lies."""
    return os.path.join(root, "crates", name)


def path_of(program):
    """Where the program lies once it is built."""
    return os.path.join(folder_of(program), "out", program)


def rows():
    """By name the lines of crates.txt, and what each crate uses."""
    found = {}
    with open(os.path.join(ROOT, "crates.txt"), encoding="utf-8") as file:
        for line in file:
            name, _, rest = line.partition("#")[0].partition(":")
            if name.split():
                found[name.split()[0]] = line, rest.split()
    return found


def crates(programs):
    """By name the crates of this repository that the programs stand on, and themselves: what each one uses of these."""
    uses = {name: lower for name, (_, lower) in rows().items()}
    found, new = set(), list(programs)
    while new:
        name = new.pop()
        if name in uses and name not in found:
            found.add(name)
            new += uses[name]
    return {name: [low for low in uses[name] if low in found] for name in uses if name in found}


def release(word, program):
    """Whether tools/release.sh, asked this of a program, says yes."""
    return subprocess.run([os.path.join(ROOT, "tools", "release.sh"), word, program], check=False).returncode == 0


def size_of(name):
    """Of how many bytes a crate's code is: what its proof takes goes by them."""
    return sum(os.path.getsize(os.path.join(folder, file)) for folder, _, files in
               os.walk(os.path.join(folder_of(name), "src")) for file in files)


def heights(uses):
    """By crate, how much is to prove from it up to the programs, in bytes of code along the longest chain."""
    sizes = {name: size_of(name) for name in uses}
    above = {name: [high for high in uses if name in uses[high]] for name in uses}
    known = {}

    def height(name):
        if name not in known:
            known[name] = sizes[name] + max(map(height, above[name]), default=0)
        return known[name]

    return {name: height(name) for name in uses}


def move(folder, target):
    """Moves a folder into another, where there is such a folder."""
    if os.path.isdir(folder):
        shutil.move(folder, target)


def set_apart(name, lower):
    """Lays out a crate and those that it stands on, by hard links, in a folder of its own, and moves what was kept of its
    proof there. The answer is where it then lies: where it was, if there can't be such a folder."""
    root = os.path.join(APART, name)
    try:
        os.makedirs(root)
        with open(os.path.join(root, "crates.txt"), "w", encoding="utf-8") as file:
            file.writelines(line for crate, (line, _) in rows().items() if crate in [name, *lower])
        for crate, parts in [(name, PARTS)] + [(low, [*PARTS, os.path.join("out", "rlib")]) for low in lower]:
            for part in parts:
                folder = os.path.join(folder_of(crate), part)
                if os.path.isdir(folder):
                    shutil.copytree(folder, os.path.join(folder_of(crate, root), part), copy_function=os.link)
    except (OSError, shutil.Error):
        shutil.rmtree(root, ignore_errors=True)
        return folder_of(name)
    move(os.path.join(folder_of(name), "out"), folder_of(name, root))
    return folder_of(name, root)


def bring_back(name):
    """Moves what was made of a crate back from its folder, if it has one, which goes."""
    root = os.path.join(APART, name)
    if os.path.isdir(root):
        shutil.rmtree(os.path.join(folder_of(name), "out"), ignore_errors=True)
        move(os.path.join(folder_of(name, root), "out"), folder_of(name))
        shutil.rmtree(root)


def below(name, uses):
    """All crates that a crate stands on."""
    found, new = set(), list(uses[name])
    while new:
        low = new.pop()
        if low not in found:
            found.add(low)
            new += uses[low]
    return sorted(found)


def most_at_once():
    """How many proofs at once there are processors and memory for."""
    with open("/proc/meminfo", encoding="ascii") as file:
        free = int(re.search(r"MemAvailable: +([0-9]+) kB", file.read()).group(1)) / 2**20
    return max(1, min(len(os.sched_getaffinity(0)), int(free / GIGABYTES)))


def tells():
    """Whether standard error is read by somebody: a terminal, or a program behind a pipe."""
    return not stat.S_ISREG(os.fstat(sys.stderr.fileno()).st_mode)


class Build:
    """The proofs of crates, side by side."""

    def __init__(self, programs, uses, log):
        self.programs, self.uses, self.log, self.begun = programs, uses, log, time.time()
        self.heights, self.most = heights(uses), most_at_once()
        self.proved, self.running, self.waiting, self.failed = set(), {}, set(uses), []
        self.changed, self.is_over = threading.Condition(), threading.Event()

    def say(self, text):
        """Tells how far it is."""
        minutes, seconds = divmod(int(time.time() - self.begun), 60)
        print(f"{' '.join(self.programs)}: {minutes}:{seconds:02} {text}", file=sys.stderr, flush=True)

    def left(self):
        """About how many minutes are left: all that is to prove by all processors, or the longest chain by one."""
        spent = time.time() - self.begun
        done = sum(map(size_of, self.proved))
        rate = spent * self.most / done if done > sum(map(size_of, self.uses)) / 10 else RATE
        rest = sum(size_of(name) for name in self.uses if name not in self.proved)
        chain = max((self.heights[name] for name in self.uses if name not in self.proved), default=0)
        return int(max(rest / self.most, chain) * rate / 60) + 1

    def tell(self):
        """Tells each minute which crates are proved, which are being proved, and what is left, until it is over."""
        while not self.is_over.wait(60):
            with self.changed:
                names = ", ".join(f"{name} ({int(time.time() - begun)} s)" for name, begun in self.running.items())
                self.say(f"{len(self.proved)} of {len(self.uses)} crates are proved; at {names}; some {self.left()} "
                         "minutes are left")

    def ready(self):
        """The crates that can be proved now, those first that most waits for."""
        ready = [name for name in self.waiting if all(low in self.proved for low in self.uses[name])]
        return sorted(ready, key=lambda name: -self.heights[name])

    def jobs_for(self, name):
        """By how many processes a crate is proved: by all where the longest chain waits for it, else by its share."""
        if len(below(name, self.uses)) >= MANY:
            return 1
        if all(self.heights[name] > self.heights[other] for other in self.running if other != name):
            return self.most
        return max(1, self.most // (len(self.running) + len(self.ready())))

    def prove(self, name, jobs):
        """Proves a crate by so many jobs, and says how it went. Without words a program ends at once."""
        words = ["run", "--jobs", str(jobs), "--", "usage"] if name in self.programs else ["lib", "--jobs", str(jobs)]
        text, is_there = "", False
        try:
            folder = set_apart(name, below(name, self.uses))
            done = subprocess.run(["rt", *words], cwd=folder, check=False, text=True,
                                  stdin=subprocess.DEVNULL, stdout=subprocess.PIPE, stderr=subprocess.STDOUT)
            bring_back(name)
            text = done.stdout
            is_there = os.path.exists(path_of(name)) if name in self.programs else done.returncode == 0
        except OSError as fault:
            text = f"error: {fault}\n"
        with self.changed:
            self.log.write(f"==== {name}\n{text}")
            self.log.flush()
            del self.running[name]
            if is_there:
                self.proved.add(name)
            else:
                self.failed.append((name, re.search(r"^.*\berror\b.*$", text, re.MULTILINE)))
            self.changed.notify_all()

    def run(self):
        """Whether all crates are proved."""
        threads = [threading.Thread(target=self.tell, daemon=True)] if tells() else []
        for thread in threads:
            thread.start()
        with self.changed:
            while self.waiting and not self.failed:
                ready = self.ready()
                if not ready or len(self.running) >= self.most:
                    self.changed.wait()
                    continue
                name = ready[0]
                self.waiting.remove(name)
                self.running[name] = time.time()
                threads.append(threading.Thread(target=self.prove, args=(name, self.jobs_for(name))))
                threads[-1].start()
            while self.running:
                self.changed.wait()
        self.is_over.set()
        for thread in threads:
            thread.join()
        shutil.rmtree(APART, ignore_errors=True)
        return not self.failed


def build(programs, uses, is_anew):
    """Whether the programs were built."""
    with open(LOG, "a+", encoding="utf-8") as log:
        try:
            fcntl.flock(log, fcntl.LOCK_EX | fcntl.LOCK_NB)
        except BlockingIOError:
            print(f"{programs[0]}: another build goes on here; this one waits for it", file=sys.stderr)
            fcntl.flock(log, fcntl.LOCK_EX)
        if not is_anew and all(release("--built", program) for program in programs):
            return True
        log.truncate(0)
        # What a build that was killed has left.
        for name in os.listdir(APART) if os.path.isdir(APART) else []:
            bring_back(name)
        for name in uses if is_anew else []:
            shutil.rmtree(os.path.join(folder_of(name), "out"), ignore_errors=True)
        made = Build(programs, uses, log)
        if made.run():
            return all([release("--note", program) for program in programs])
        for name, line in made.failed:
            print(f"{programs[0]}: {name} isn't proved: {line.group() if line else 'see build.log'}", file=sys.stderr)
        return False


def main():
    """Builds. The answer is the status."""
    words = argparse.ArgumentParser(description=__doc__, formatter_class=argparse.RawDescriptionHelpFormatter)
    words.add_argument("--anew", action="store_true", help="begin from nothing: what was built here goes")
    words.add_argument("programs", metavar="PROGRAM", nargs="*", help="groute, grbound")
    asked = words.parse_args()
    programs = asked.programs or PROGRAMS[:1]
    if not set(programs) <= set(PROGRAMS):
        words.error(f"the programs are {' and '.join(PROGRAMS)}")
    if not shutil.which("rt"):
        print(f"{programs[0]}: rt isn't on PATH: to prove and build takes Rattle's toolchain", file=sys.stderr)
        return 1
    return 0 if build(programs, crates(programs), asked.anew) else 1


if __name__ == "__main__":
    sys.exit(main())
