#!/usr/bin/env python3
"""draw.py SEED: the recipes and the documents of a workload, each on a line, and the generator's state after them.

It is written apart from the program, so that each can be held against the other: the tests know the SHA-256 of what it
prints for some seeds (`python3 draw.py 1 | sha256sum`)."""
import json
import sys

state = int(sys.argv[1])


def draw():
    global state
    state = (state * 6364136223846793005 + 1442695040888963407) % 2**64
    return state // 2**33


def put(tree):
    print(json.dumps(tree, separators=(",", ":"), sort_keys=True))


for i in range(24):
    for minor in range(1 + draw() % 3):
        recipe = {"RecipeFormatVersion": "2020-01-25", "ComponentName": f"w.c{i:02}", "ComponentVersion": f"1.{minor}.0"}
        recipe["Manifests"] = [{"Lifecycle": {"startup": "start"}}]
        if i > 0:
            recipe["ComponentDependencies"] = {f"w.c{draw() % i:02}": {"VersionRequirement": "^1.0.0"}}
        put(recipe)
for n in range(32):
    group = f"g{draw() % 3}"
    roots = [f"w.c{draw() % 24:02}" for _ in range(1 + draw() % 4)]
    put({"deploymentId": f"w{n}", "targetArn": group, "components": {root: {"componentVersion": "^1.0.0"} for root in roots}})
print(state)
