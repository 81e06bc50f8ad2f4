#!/usr/bin/env python3
"""draw.py SEED | outcomes.py SEED: the line that the workload of that seed prints.

A model of what its deployments do, written apart from the program. Each component has one step, and needs at most one other:
so the greatest versions are chosen, all of a set is started anew for each document, and children end in the order of their
starts."""
import json
import sys

lines = sys.stdin.read().split("\n")[:-1]
trees, state = [json.loads(line) for line in lines[:-1]], int(lines[-1])
need = {tree["ComponentName"]: next(iter(tree.get("ComponentDependencies", {})), None) for tree in trees[:-32]}


def start_fails():
    global state
    state = (state * 6364136223846793005 + 1442695040888963407) % 2**64
    return state // 2**33 % 8 == 0


def set_of(names):
    found = set()
    for name in names:
        while name is not None and name not in found:
            found.add(name)
            name = need[name]
    return found


def comes_up(components):
    def started(names):
        return [(name, start_fails()) for name in sorted(names)]

    failures = dict.fromkeys(components, 0)
    children = started(name for name in components if need[name] is None)
    while children:
        (name, failed) = children.pop(0)
        failures[name] += failed
        if failures[name] == 3:
            return False
        children += started([name] if failed else [other for other in components if need[other] == name])
    return True


groups, present, successful, rolled_back, broken = {}, set(), 0, 0, 0
for document in trees[-32:]:
    wanted = {**groups, document["targetArn"]: list(document["components"])}
    components = set_of(root for roots in wanted.values() for root in roots)
    if comes_up(components):
        groups, present, successful = wanted, components, successful + 1
    elif comes_up(present):
        rolled_back += 1
    else:
        broken += 1
print(f"workload {sys.argv[1]}: 32 deployments, {successful} successful, {rolled_back} rolled back, {broken} broken")
