#!/usr/bin/env python3
"""needless.py CRATE: takes away the answers in CRATE/proofs/**/Answers.antt that the check finds alone with half its limits (--margin), and keeps the rest.

CRATE is a folder of crates/. Lemmas in these files stay. A file with nothing left goes. Go from the top of crates.txt down, so that no crate below is built again."""
import glob
import os
import re
import subprocess
import sys

SIGNATURE = re.compile(r"^pub\s+(\S+)\s*:\s*goal\.(\S+)\s*$", re.M)
DECLARES = re.compile(r"^(?!use |--)\S", re.M)
MUST_PROVE = re.compile(r"`(\S+?)` of (proofs/\S+?/Answers\.antt) must prove")
NOT_PROVED = re.compile(r"expected answers in \./(proofs/\S+?/Answers\.antt); `search` did not prove (.*)")
REFUSED = re.compile(r"^\./(proofs/\S+?/Answers\.antt):\d+:\d+: error", re.M)
ROUNDS = 12


def blocks(text):
    """The declarations of a file, each with the comments before it: a blank line ends one where the next line is not indented."""
    out, block = [], []
    for line in text.split("\n") + [""]:
        if line and not line[0].isspace() and block and not block[-1].strip():
            out.append("\n".join(block).strip("\n"))
            block = []
        block.append(line)
    out.append("\n".join(block).strip("\n"))
    return [block for block in out if block.strip()]


def goal_of(block):
    """The goal that a block answers, if it answers one."""
    found = SIGNATURE.search(block)
    return found.group(1) if found and found.group(1) == found.group(2) else None


class Answers:
    """One file: its blocks, and the goals whose answers it keeps."""

    def __init__(self, path):
        self.path = path
        self.text = open(path).read()
        self.blocks = blocks(self.text)
        self.goals = {goal_of(block) for block in self.blocks} - {None}
        self.kept = set()

    def write(self):
        """Writes what is kept: the file as it was where all is, and none where nothing is."""
        rest = [b for b in self.blocks if goal_of(b) is None or goal_of(b) in self.kept]
        if self.kept == self.goals:
            open(self.path, "w").write(self.text)
        elif any(DECLARES.search(block) for block in rest):
            open(self.path, "w").write("\n\n".join(rest) + "\n")
        elif os.path.exists(self.path):
            os.remove(self.path)

    def keep(self, goal):
        """Keeps the answer of a goal, or all where no answer has its name. Says whether more is kept than before."""
        near = {g for g in self.goals if g.split("-clause-")[0] == goal.split("-clause-")[0]}
        more = near if near - self.kept else self.goals
        grows = bool(more - self.kept)
        self.kept |= more
        return grows


def open_goals(said):
    """The files and goals that a check says are open or refused."""
    for goal, path in MUST_PROVE.findall(said):
        yield path, goal
    for path, goals in NOT_PROVED.findall(said):
        for goal in re.findall(r"`([^`]+)`", goals):
            yield path, goal
    for path in REFUSED.findall(said):
        yield path, ""


def main():
    if len(sys.argv) != 2:
        sys.exit(__doc__)
    os.chdir(sys.argv[1])
    files = {p: Answers(p) for p in glob.glob("proofs/**/Answers.antt", recursive=True)}
    before = sum(len(file.goals) for file in files.values())
    for _ in range(ROUNDS):
        for file in files.values():
            file.write()
        run = subprocess.run(["rt", "check", "--margin"], stdout=subprocess.PIPE, stderr=subprocess.STDOUT, text=True)
        if re.search(r"^logic=proved", run.stdout, re.M):
            break
        if not any([files[path].keep(goal) for path, goal in open_goals(run.stdout) if path in files]):
            sys.exit(run.stdout + "\nnot proved, and no answer is left to put back")
    else:
        sys.exit(f"not proved after {ROUNDS} rounds")
    print(f"{before} answers, {sum(len(file.kept) for file in files.values())} kept")


main()
