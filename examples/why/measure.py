#!/usr/bin/env python3
"""measure.py PROGRAM EXPECTED: what `plan` and `why` say of libraries in which no set of versions is valid, or is found late.

Each library is written below a folder of its own and read by the program. What is printed of it, the statuses and how many
lines the certificate has, is held against the file EXPECTED; the counts there follow from the shape of each library, as
`lines` below says. The processor seconds and the memory at its greatest are something to look at."""
import json
import os
import subprocess
import sys
import tempfile

PROGRAM, EXPECTED = sys.argv[1:]


def recipe(name, major, needs=()):
    return {
        "RecipeFormatVersion": "2020-01-25",
        "ComponentName": name,
        "ComponentVersion": f"{major}.0.0",
        "ComponentDependencies": {need: {"VersionRequirement": asked} for need, asked in needs},
    }


def clash(names, versions):
    """So many names of so many versions without needs, and `z`, which needs a `y` that there is not."""
    many = [f"a{name:02}" for name in range(names)]
    recipes = [recipe(name, major) for name in many for major in range(1, versions + 1)]
    return recipes + [recipe("y", 1), recipe("z", 1, [("y", "^2")])], many + ["z"]


def late(names):
    """The newest of so many names need `q` in 2, and the last name, `zz`, needs it in 1: so the older ones are chosen."""
    many = [f"p{name:02}" for name in range(names)]
    recipes = [recipe(name, major, [("q", f"^{major}")]) for name in many for major in (1, 2)]
    return recipes + [recipe("q", 1), recipe("q", 2), recipe("zz", 1, [("q", "^1")])], many + ["q", "zz"]


def chain(names, versions):
    """Each version of a name needs the next name, and those of the last one an `end` that there is not."""
    recipes = [recipe("end", 1)]
    for name in range(names):
        need = (f"n{name + 1:02}", "*") if name + 1 < names else ("end", "^2")
        recipes += [recipe(f"n{name:02}", major, [need]) for major in range(1, versions + 1)]
    return recipes, ["n00"]


# Lines by hand. A split is a line, and each of its versions a `try` with what stands below it. `y` or `end` is a split, a
# `try` and a refusal: 3 lines; `z` is 2 lines above that. A plain certificate has at most 1,024 nodes, which are the splits
# and the refusals: that of `clash(4, 4)` has 853 of them. In a small one of a clash the other names are left out, and one
# of a chain has as many nodes as a plain one: `chain(4, 10)` has 21,111, and `chain(5, 10)` 211,111, more than 65,536.
LIBRARIES = [
    ("clash(4, 4)", clash(4, 4)),
    ("clash(10, 4)", clash(10, 4)),
    ("clash(40, 4)", clash(40, 4)),
    ("clash(100, 10)", clash(100, 10)),
    ("late(24)", late(24)),
    ("chain(100, 1)", chain(100, 1)),
    ("chain(2, 10)", chain(2, 10)),
    ("chain(3, 10)", chain(3, 10)),
    ("chain(4, 10)", chain(4, 10)),
    ("chain(5, 10)", chain(5, 10)),
    ("chain(100, 10)", chain(100, 10)),
]


def call(root, command, document):
    """The status, the lines, the processor seconds and the greatest memory of a call."""
    with open(document, "rb") as source, open(f"{root}/said", "wb") as said:
        child = subprocess.Popen([PROGRAM, "--root", root, *command], stdin=source, stdout=said)
        _, status, used = os.wait4(child.pid, 0)
        child.returncode = os.waitstatus_to_exitcode(status)
    with open(f"{root}/said", "rb") as said:
        return child.returncode, said.read(), used.ru_utime + used.ru_stime, used.ru_maxrss / 1024


def measured(root, title, recipes, roots):
    folder = f"{root}/library/recipes"
    for name in os.listdir(folder):
        os.remove(f"{folder}/{name}")
    for at, one in enumerate(recipes):
        with open(f"{folder}/{at:04}.json", "w", encoding="utf-8") as file:
            json.dump(one, file)
    document = {"deploymentId": "d", "targetArn": "g", "components": {name: {"componentVersion": "*"} for name in roots}}
    with open(f"{root}/document", "w", encoding="utf-8") as file:
        json.dump(document, file)
    planned, _, plan_seconds, _ = call(root, ["plan"], f"{root}/document")
    told, said, seconds, memory = call(root, ["why"], f"{root}/document")
    lines = said.count(b"\n")
    print(f"| `{title}` | {len(recipes)} | {planned} | {told} | {lines} | {plan_seconds:.2f} | {seconds:.2f} | {memory:.0f} |", flush=True)
    return f"{title}: plan {planned}, why {told} in {lines} lines\n"


with tempfile.TemporaryDirectory() as root:
    call(root, ["init", "--thing", "t1", "--nucleus", "2.12.0", "--os", "linux", "--arch", "amd64"], os.devnull)
    os.makedirs(f"{root}/library/recipes")
    print("| Library | Recipes | Status of `plan` | of `why` | Lines | `plan`, s | `why`, s | `why`, MiB |")
    print("|---|---|---|---|---|---|---|---|")
    said = "".join(measured(root, title, *library) for title, library in LIBRARIES)
with open(EXPECTED, encoding="utf-8") as expected:
    if said != expected.read():
        sys.exit(f"not what is expected in {EXPECTED}:\n{said}")
