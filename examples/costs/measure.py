"""Measures what commands of the program take, beside programs that do the same, and prints a table: the words are the program, a folder
to work in, and the compiled calls.c. Each figure is the least of several runs; processor time where it says so, else elapsed time."""
import os
import random
import re
import shutil
import struct
import subprocess
import sys
import time
import uuid

PROGRAM, FOLDER, CALLS = sys.argv[1:4]
GENESIS = [b"thing", b"2.12.0", b"linux", b"amd64"]


def text(it):
    return struct.pack(">I", len(it)) + it


def entry(payload):
    return b"\x01" + struct.pack(">I", len(payload)) + payload


def name(number):
    """An id as a cloud gives it: drawn, and the same in each run."""
    return str(uuid.UUID(int=random.Random(number).getrandbits(128), version=4)).encode()


def begun_anew(root, closed):
    """A journal that was begun anew: its first record has the counts, and each closed deployment is one record."""
    fields = b"".join(text(it) for it in [root.encode(), *GENESIS])
    yield entry(b"\x19" + struct.pack(">Q", 2) + fields + struct.pack(">III", 1, 0, closed))
    yield entry(b"\x1a" + text(b"g") + struct.pack(">I", 0))
    for number in range(closed):
        yield entry(b"\x1c" + text(name(number)) + b"\x01")


def as_recorded(root, closed):
    """A journal that never was begun anew: each closed deployment has its acceptance, its completion and its close."""
    yield entry(b"\x11" + b"".join(text(it) for it in [root.encode(), *GENESIS]))
    for number in range(closed):
        yield entry(b"\x12" + text(name(number)) + text(b"g") + b"\x00" + struct.pack(">III", 0, 0, 0))
        yield entry(b"\x15")
        yield entry(b"\x18\x01")


def store(kind, closed):
    root = f"{FOLDER}/{kind.__name__}-{closed}"
    os.makedirs(f"{root}/library/recipes")
    with open(f"{root}/journal", "wb") as it:
        for one in kind(root, closed):
            it.write(one)
        it.write(b"\x00")
    return root


def run(words, given=b"", folder=None):
    """Runs a command whose status is 0, and returns the seconds it took, those of the processor, the most memory in KB, and its lines."""
    reads, writes = os.pipe()
    began = time.monotonic()
    child = subprocess.Popen(words, stdin=reads, stdout=subprocess.PIPE, cwd=folder)
    os.close(reads)
    os.write(writes, given)
    os.close(writes)
    said = child.stdout.read()
    _, status, usage = os.wait4(child.pid, 0)
    took = time.monotonic() - began
    child.returncode = os.waitstatus_to_exitcode(status)
    if child.returncode:
        sys.exit(f"{words} ended with {child.returncode}: {said[-200:]}")
    return took, usage.ru_utime + usage.ru_stime, usage.ru_maxrss, said


def least(runs, which, *given, **named):
    return min(run(*given, **named)[which] for _ in range(runs))


def show(what, ours, other, theirs, unit="ms"):
    print(f"{what}: {ours * 1000:.1f} {unit}; {other}: {theirs * 1000:.1f} {unit}; {ours / theirs:.2f} times", flush=True)


def of_status():
    for closed in (1_000, 10_000, 65_536):
        base = f"{FOLDER}/closed-{closed}.sqlite"
        rows = "".join(f"insert into closed values('{name(it).decode()}', 'SUCCESSFUL');" for it in range(closed))
        script = f"begin; create table closed(id text unique, outcome text); {rows} commit;"
        subprocess.run(["sqlite3", base], input=script.encode(), check=True)
        theirs = least(7, 1, ["sqlite3", base, "select id, outcome from closed order by rowid"])
        for kind in (begun_anew, as_recorded):
            root = store(kind, closed)
            said = run([PROGRAM, "--root", root, "status"])[3]
            if said.count(b"\nclosed ") != closed:
                sys.exit(f"status does not print {closed} closed deployments")
            ours = least(7, 1, [PROGRAM, "--root", root, "status"])
            show(f"status over {closed} closed, {kind.__name__}, processor", ours, "sqlite3", theirs)


def of_the_last_deploy():
    document = b'{"deploymentId":"last","targetArn":"g","components":{}}'
    for kind in (begun_anew, as_recorded):
        found = []
        for _ in range(3):
            root = store(kind, 131_071)
            found.append(run([PROGRAM, "--root", root, "deploy"], document))
            shutil.rmtree(root)
        took, memory = min(it[0] for it in found), min(it[2] for it in found)
        print(f"the deploy that takes the last of 131,072, {kind.__name__}: {took * 1000:.0f} ms, {memory / 1024:.0f} MB", flush=True)


def fresh(root, components, artifact=None):
    shutil.rmtree(root, ignore_errors=True)
    os.makedirs(f"{root}/library/recipes")
    run([PROGRAM, "--root", root, "init", "--thing", "t", "--nucleus", "2.12.0", "--os", "linux", "--arch", "amd64"])
    for number in range(components):
        manifest = '{"Artifacts":[{"URI":"s3://b/file"}]}' if artifact else "{}"
        with open(f"{root}/library/recipes/C{number:03}-1.0.0.json", "w", encoding="ascii") as it:
            it.write(f'{{"RecipeFormatVersion":"2020-01-25","ComponentName":"C{number:03}","ComponentVersion":"1.0.0","Manifests":[{manifest}]}}')
        if artifact:
            folder = f"{root}/library/artifacts/C{number:03}/1.0.0"
            os.makedirs(folder)
            shutil.copy(artifact, f"{folder}/file")
    wanted = ",".join(f'"C{it:03}":{{"componentVersion":"1.0.0"}}' for it in range(components))
    os.sync()
    return f'{{"deploymentId":"d","targetArn":"g","components":{{{wanted}}}}}'.encode()


def calls_of(trace, root):
    """The calls on files below the folder, as calls.c reads them."""
    flags = {it: getattr(os, it) for it in dir(os) if it.startswith("O_")}
    found, ours = [], set()
    for line in trace.splitlines():
        call = re.match(r"(?:\d+ +)?(\w+)\((.*)\) += (-?\d+)", line)
        if not call or int(call[3]) < 0:
            continue
        verb, given, result = call[1], call[2], int(call[3])
        path = re.search(r'"((?:[^"\\]|\\.)*)"', given)
        number = re.match(r"(\d+)", given)
        if verb in ("openat", "open") and path and path[1].startswith(root):
            words = re.search(r"O_[A-Z_|]+", given)[0].split("|")
            ours.add(result)
            found.append(f"open {result} {sum(flags.get(it, 0) for it in words)} .{path[1][len(root):]}")
        elif verb in ("mkdir", "unlink") and path and path[1].startswith(root):
            found.append(f"{verb} .{path[1][len(root):]}")
        elif number and int(number[1]) in ours:
            file, sizes = number[1], re.findall(r", (\d+)", given)
            if verb == "pwrite64":
                found.append(f"pwrite {file} {sizes[-2]} {sizes[-1]}")
            elif verb == "pread64":
                found.append(f"pread {file} {sizes[-2]} {sizes[-1]}")
            elif verb == "read":
                found.append(f"read {file} {sizes[-1]}")
            elif verb == "ftruncate":
                found.append(f"cut {file} {sizes[-1]}")
            elif verb in ("fsync", "fdatasync"):
                found.append(f"{'sync' if verb == 'fsync' else 'datasync'} {file}")
            elif verb == "close":
                ours.discard(int(file))
                found.append(f"close {file}")
    return "\n".join(found) + "\n"


def of_a_hundred():
    root, trace = f"{FOLDER}/hundred", f"{FOLDER}/trace"
    small = f"{FOLDER}/small"
    with open(small, "wb") as it:
        it.write(b"x" * 1000)
    for artifact in (None, small):
        document = fresh(root, 100, artifact)
        traced = "trace=openat,open,mkdir,unlink,pwrite64,pread64,read,ftruncate,fsync,fdatasync,close"
        run(["strace", "-f", "-s", "0", "-e", "signal=none", "-e", traced, "-o", trace, PROGRAM, "--root", root, "deploy"], document)
        with open(trace, encoding="utf-8", errors="replace") as it:
            calls = calls_of(it.read(), root)
        listed = f"{FOLDER}/listed"
        with open(listed, "w", encoding="ascii") as it:
            it.write(calls)
        ours, theirs, busy = [], [], []
        for _ in range(5):
            document = fresh(root, 100, artifact)
            took = run([PROGRAM, "--root", root, "deploy"], document)
            ours.append(took[0])
            busy.append(took[1])
            fresh(root, 100, artifact)
            theirs.append(run(["sh", "-c", f'"{CALLS}" < "{listed}"'], folder=root)[0])
        what = "with an artifact each" if artifact else "without artifacts"
        syncs = len(re.findall(r"sync ", calls))
        show(f"deploy of 100 components {what}, {syncs} syncs, elapsed", min(ours), "the same calls in C", min(theirs))
        print(f"  of which the processor: {min(busy) * 1000:.1f} ms", flush=True)


def of_a_large_artifact():
    root, large = f"{FOLDER}/large", f"{FOLDER}/file"
    with open(large, "wb") as it:
        it.write(os.urandom(16 << 20))
    ours, busy, theirs = [], [], []
    for _ in range(5):
        document = fresh(root, 1, large)
        took = run([PROGRAM, "--root", root, "deploy"], document)
        ours.append(took[0])
        busy.append(took[1])
        other = f"{FOLDER}/other"
        if os.path.exists(other):
            os.remove(other)
        os.sync()
        theirs.append(run(["sh", "-c", f'cp "{large}" "{other}" && sha256sum "{other}" && sync "{other}"'])[0])
    show("16 MiB of one artifact taken in, elapsed", min(ours), "cp, sha256sum and sync", min(theirs))
    print(f"  of which the processor: {min(busy) * 1000:.1f} ms", flush=True)


of_status()
of_the_last_deploy()
of_a_hundred()
of_a_large_artifact()
