#!/usr/bin/env python3
"""measure.py PROGRAM ROOT: what choosing versions takes in libraries of several families, beside clasp where that is installed.

Of each family `plan` is run, and so often without anything wanted, which only reads the library; what is left is the search.
Of clasp the whole call counts, its start and its reading too, and beside it stands a call that only reads and prints what it
read. The least of the runs counts, in processor time, so that other work on the machine shows little. Fails where an end is not that of
the family, where the set is not clasp's, and where a goal is missed by more than a quarter: no family but pigeonholes takes
longer than clasp nor above 60 ms, nine pigeonholes take below 0.2 s, and a search that gives up does so within two seconds and
16 MB, and `why` says it within two seconds of 1,024 names with 64 needs each."""
import json
import os
import shutil
import subprocess
import sys

import libraries
import peer

PROGRAM, ROOT = sys.argv[1:]
RUNS = 5
# Below this two times are not told apart.
NOISE = 0.004
STATUSES = {"set": 0, "large": 14, "none": 3, "spent": 15}


def call(command, document):
    """The status, the lines, the processor seconds and the greatest memory, in MB, of a call."""
    with open(document, "rb") as source, open(f"{ROOT}/said", "wb") as said:
        child = subprocess.Popen([PROGRAM, "--root", ROOT, command], stdin=source, stdout=said)
        _, status, used = os.wait4(child.pid, 0)
        child.returncode = os.waitstatus_to_exitcode(status)
    with open(f"{ROOT}/said", encoding="utf-8") as said:
        return child.returncode, said.read(), used.ru_utime + used.ru_stime, used.ru_maxrss / 1000


def least(calls):
    """The first status and lines of the calls, with the least seconds and memory."""
    return calls[0][0], calls[0][1], min(one[2] for one in calls), min(one[3] for one in calls)


def write_library(recipes):
    folder = f"{ROOT}/library/recipes"
    shutil.rmtree(folder, ignore_errors=True)
    os.makedirs(folder)
    for at, (name, version, needs) in enumerate(recipes):
        recipe = {
            "RecipeFormatVersion": "2020-01-25",
            "ComponentName": name,
            "ComponentVersion": libraries.text(version),
            "ComponentDependencies": {needed: {"VersionRequirement": asked} for needed, asked in needs},
        }
        with open(f"{folder}/{at:04}.json", "w", encoding="utf-8") as file:
            json.dump(recipe, file)


def write_document(path, wanted):
    components = {name: {"componentVersion": asked} for name, asked in wanted}
    with open(path, "w", encoding="utf-8") as file:
        json.dump({"deploymentId": "d", "targetArn": "g", "components": components}, file)


def set_of(lines):
    words = [line.split(" ") for line in lines.splitlines()]
    return sorted(f"{word[1]}@{word[2]}" for word in words if word[0] == "plan")


def missed(title, end, took, beside, memory, why):
    """The goals that a family misses by more than a quarter."""
    limit = 2.0 if end == "spent" else 0.2 if title.startswith("pigeons") else 0.06
    if took > limit * 1.25 + NOISE:
        yield f"{title}: {took:.3f} s, more than {limit} s"
    if end == "spent" and memory > 16 * 1.25:
        yield f"{title}: {memory:.1f} MB, more than 16 MB"
    if beside is not None and not title.startswith("pigeons") and took > beside * 1.25 + NOISE:
        yield f"{title}: {took:.3f} s, and clasp {beside:.3f} s"
    if title.startswith("1,024 names") and why > 2 * 1.25:
        yield f"{title}: `why` takes {why:.3f} s, more than 2 s"


def millis(seconds):
    return "" if seconds is None else f"{seconds * 1000:.1f}"


def measured(title, end, library, has_clasp):
    recipes, wanted = library()
    write_library(recipes)
    write_document(f"{ROOT}/nothing", [])
    write_document(f"{ROOT}/document", wanted)
    _, _, reading, read_memory = least([call("plan", f"{ROOT}/nothing") for _ in range(RUNS)])
    status, lines, whole, memory = least([call("plan", f"{ROOT}/document") for _ in range(RUNS)])
    why_status, _, why, _ = call("why", f"{ROOT}/document")
    took = max(whole - reading, 0.0)
    faults = []
    if status != STATUSES[end] or why_status not in ([15] if end == "spent" else [3, 15] if end == "none" else [0]):
        faults.append(f"{title}: status {status}, and of `why` {why_status}")
    beside = beside_reading = None
    if has_clasp:
        with open(f"{ROOT}/program", "w", encoding="utf-8") as file:
            file.write(peer.program_of(recipes, wanted))
        found, beside = min((peer.solved(f"{ROOT}/program", 20) for _ in range(1 if end == "spent" else RUNS)), key=lambda one: one[1])
        beside_reading = min(peer.read(f"{ROOT}/program") for _ in range(RUNS))
        if end in ("set", "none") and found not in ("late", set_of(lines) if end == "set" else None):
            faults.append(f"{title}: clasp has another set")
    faults += missed(title, end, took, beside, memory - read_memory, why)
    row = [title, end, len(recipes), millis(took), millis(beside), millis(reading), millis(beside_reading), millis(why), f"{memory:.1f}"]
    print(f"| {' | '.join(map(str, row))} |", flush=True)
    return faults


has_clasp = shutil.which("clasp") is not None
if not has_clasp:
    print("clasp is not installed: its times are left out", file=sys.stderr)
with open(f"{ROOT}/started", "wb") as said:
    init = [PROGRAM, "--root", ROOT, "init", "--thing", "t1", "--nucleus", "2.12.0", "--os", "linux", "--arch", "amd64"]
    subprocess.run(init, stdout=said, check=True)
print("| Library | Ends | Recipes | Search, ms | clasp, ms | Reading, ms | clasp reading, ms | `why`, ms | Peak, MB |")
print("|---|---|---|---|---|---|---|---|---|")
faults = [fault for family in libraries.FAMILIES for fault in measured(*family, has_clasp)]
if faults:
    sys.exit("\n".join(faults))
