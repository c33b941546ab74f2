#!/usr/bin/env python3
"""Where a program of crates/ stands, proved and ready to run. Prints its path; what it does meanwhile is said on standard error.

usage: tools/built.py [--proved] NAME

`rt run` in crates/NAME decides. Where nothing has changed since it built the program, that takes a second or two. Else it proves what is not
proved yet (minutes the first time; seconds where the same was proved before, here or in another copy of the repository on this machine), and
links crates/NAME/out/NAME. It then runs the program, here on no input, and what that prints is dropped.

Nothing is built without a proof: --proved is how this was asked for once, and changes nothing. To build over another copy of the repository,
call `built` from Python.
"""
import os
import re
import shutil
import subprocess
import sys
import threading
import time

ROOT = os.path.dirname(os.path.dirname(os.path.abspath(__file__)))
# seconds after which it is said that a proof is under way, and after which again
SOON, AGAIN = 4, 15


class Failed(Exception):
    """Why there is no program."""


def quiet(line):
    pass


class Crates:
    """What the crates.txt of a copy of the repository says: each crate, and what it uses."""

    def __init__(self, root=ROOT):
        self.root, self.used = root, {}
        with open(os.path.join(root, "crates.txt"), encoding="utf-8") as file:
            for line in file:
                words, colon, used = line.split("#")[0].partition(":")
                if colon:
                    self.used[words.split()[0]] = used.split()

    def below(self, name):
        """The crates of the repository that it stands on, and itself as the last."""
        done = []

        def visit(one):
            for other in self.used.get(one, ()):
                if other in self.used and other not in done:
                    visit(other)
            done.append(one)

        visit(name)
        return done

    def folder(self, name):
        """The folder of a program."""
        folder = os.path.join(self.root, "crates", name)
        if name not in self.used or not os.path.isfile(os.path.join(folder, "src", "main.rt")):
            raise Failed(f"'{name}' is no program of crates.txt with a src/main.rt")
        return folder


def copied(name, room):
    """Copies a crate and those that it stands on, as a repository of its own, to a folder; what rt made of them stays behind. The folder has to
    stand outside of this repository: rt ci refuses one that has sources twice."""
    crates = Crates()
    below = crates.below(name)
    with open(os.path.join(room, "crates.txt"), "w", encoding="utf-8") as file, open(os.path.join(ROOT, "crates.txt"), encoding="utf-8") as lines:
        file.writelines(line for line in lines if line.split(":")[0].split() and line.split(":")[0].split()[0] in below)
    for one in below:
        shutil.copytree(os.path.join(ROOT, "crates", one), os.path.join(room, "crates", one), ignore=shutil.ignore_patterns("out"))
    return os.path.join(room, "crates", name)


def built(name, root=ROOT, say=quiet):
    """The path of the program, proved and linked as its sources stand."""
    crates = Crates(root)
    folder, below = crates.folder(name), crates.below(name)
    proved, over, is_built, began = set(), threading.Event(), False, time.time()

    def tell():
        if not over.wait(SOON):
            say(f"proving {name} and what it stands on, {len(below)} crates, as far as that is not done yet; this takes minutes the first time")
        while not over.wait(AGAIN):
            say(f"{time.time() - began:.0f} s; proved now: {', '.join(one for one in below if one in proved) or 'none yet'}")

    try:
        run = subprocess.Popen(["rt", "run"], cwd=folder, stdin=subprocess.DEVNULL, stdout=subprocess.DEVNULL, stderr=subprocess.PIPE, text=True, errors="replace")
    except FileNotFoundError:
        raise Failed("the Rattle kit's 'rt' is missing from PATH")
    threading.Thread(target=tell, daemon=True).start()
    try:
        for line in run.stderr:
            told = re.match(r"crate (\w+): modules loaded", line)
            if told:
                proved.add(told[1])
            # the status is the program's own, so that it runs at all is the sign that it was built
            is_built = is_built or line.startswith(f"rt: running out/{name}")
        run.wait()
    finally:
        over.set()
    if not is_built:
        raise Failed(f"'rt run' in {os.path.relpath(folder)} does not pass; run it there to see why")
    return os.path.join(folder, "out", name)


def main():
    words = sys.argv[1:]
    if words in (["-h"], ["--help"]):
        print(__doc__.strip())
        return
    names = words[1:] if words[:1] == ["--proved"] else words
    if len(names) != 1 or names[0].startswith("-"):
        print(__doc__.strip(), file=sys.stderr)
        sys.exit(2)
    try:
        print(built(names[0], say=lambda line: print(f"built: {line}", file=sys.stderr, flush=True)))
    except (Failed, OSError) as why:
        sys.exit(f"built: {why}")
    except KeyboardInterrupt:
        sys.exit(130)


if __name__ == "__main__":
    main()
