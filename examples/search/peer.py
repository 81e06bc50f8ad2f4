"""A library as a program for clasp, told to decide as the search does: the least required name, and its greatest version.

The program is written in clasp's own input format. A version may be chosen where its name is required; then exactly one is, what
it needs is required and in range, and the chosen ones have no cycle."""
import os
import subprocess
import time


def parts(version):
    return tuple(int(part) for part in version.split("."))


def holds(asked, version):
    if asked == "*":
        return True
    if asked.startswith(">="):
        return version >= parts(asked[2:])
    if asked.startswith("^"):
        low = parts(asked[1:])
        return low <= version < (low[0] + 1, 0, 0)
    if asked.startswith("~"):
        low = parts(asked[1:])
        return low <= version < (low[0], low[1] + 1, 0)
    return version == parts(asked)


class Program:
    def __init__(self):
        self.lines, self.atoms = ["asp 1 0 0"], 0

    def atom(self):
        self.atoms += 1
        return self.atoms

    def rule(self, head, body):
        self.lines.append(" ".join(map(str, [1, 0, len(head), *head, 0, len(body), *body])))

    def choice(self, heads, body):
        self.lines.append(" ".join(map(str, [1, 1, len(heads), *heads, 0, len(body), *body])))

    def at_least(self, head, count, atoms):
        pairs = [word for atom in atoms for word in (atom, 1)]
        self.lines.append(" ".join(map(str, [1, 0, len(head), *head, 1, count, len(atoms), *pairs])))


def program_of(recipes, wanted):
    made = Program()
    names = sorted({name for name, _, _ in recipes})
    number = {name: at for at, name in enumerate(names)}
    required = {name: made.atom() for name in names}
    chosen = [made.atom() for _ in recipes]
    of = {name: [] for name in names}
    for at, (name, version, _) in enumerate(recipes):
        of[name].append((version, chosen[at]))
    ranges = {}

    def in_range(name, asked):
        if (name, asked) not in ranges:
            ranges[name, asked] = made.atom()
            for version, atom in of.get(name, []):
                if holds(asked, version):
                    made.rule([ranges[name, asked]], [atom])
        return ranges[name, asked]

    for name in names:
        atoms = [atom for _, atom in of[name]]
        made.choice(atoms, [required[name]])
        some = made.atom()
        made.at_least([some], 1, atoms)
        made.rule([], [required[name], -some])
        if len(atoms) > 1:
            made.at_least([], 2, atoms)
    # clasp's levels have 15 bits, so they are counted through.
    level = 0
    for name in reversed(names):
        for _, atom in sorted(of[name]):
            level += 1
            made.lines.append(f"7 4 {atom} {level} {level} 1 {required[name]}")
    for at, (name, _, needs) in enumerate(recipes):
        for needed, asked in needs:
            made.rule([], [chosen[at], -in_range(needed, asked)])
            if needed in required:
                made.rule([required[needed]], [chosen[at]])
                made.lines.append(f"8 {number[name]} {number[needed]} 1 {chosen[at]}")
    for name, asked in wanted:
        made.rule([], [-in_range(name, asked)])
        if name in required:
            made.rule([required[name]], [])
    for at, (name, version, _) in enumerate(recipes):
        said = f"{name}@{'.'.join(map(str, version))}"
        made.lines.append(f"4 {len(said)} {said} 1 {chosen[at]}")
    return "\n".join([*made.lines, "0", ""])


def called(words):
    """What clasp prints, and the processor seconds of the whole call."""
    child = subprocess.Popen(["clasp", *words], stdout=subprocess.PIPE, stderr=subprocess.DEVNULL)
    said = child.stdout.read().decode()
    _, _, used = os.wait4(child.pid, 0)
    child.returncode = 0
    return said, used.ru_utime + used.ru_stime


def read(path):
    """The processor seconds of a call that reads the program, simplifies it as one that solves does, and prints it."""
    return called(["--pre", path])[1]


def solved(path, seconds):
    """The chosen versions, None where there are none, or "late"; and the processor seconds of the whole call."""
    said, took = called(["--heuristic=Domain", "--time-limit", str(seconds), path])
    if "UNSATISFIABLE" in said:
        return None, took
    if "SATISFIABLE" not in said:
        return "late", took
    answer = said[said.index("Answer"):].split("\n")[1]
    return sorted(answer.split()), took
