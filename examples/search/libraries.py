"""Libraries of several families, each drawn from its seed, and what is wanted of them.

A library is a list of recipes (name, version, needs) in the order of name and version, where a version is three numbers and a
need is a name and a range; what is wanted is a list of needs. A range here is "*", one exact version, or one with "^", "~",
">=" or "<=" before it."""
import random


def text(version):
    return ".".join(str(part) for part in version)


def plain(versions):
    return [(major, 0, 0) for major in range(1, versions + 1)]


def drawn(seed, names, versions, needs, operator, back=0.0, has_set=True):
    """Each version of each name needs so many later names, in ranges that begin at a drawn version, with a drawn operator; and
    with `back` an earlier name too. Where it is to have a set, one version of each name needs only what goes together."""
    draw = random.Random(seed)
    chosen = [draw.choice(versions) for _ in range(names)]
    recipes = []
    for at in range(names):
        for version in versions:
            later = range(at + 1, min(names, at + 16))
            to = draw.sample(later, min(needs, len(later)))
            if at and draw.random() < back:
                to.append(draw.randrange(at))
            fits = has_set and version == chosen[at]
            of = [(f"c{name:04}", operator(draw) + text(chosen[name] if fits else draw.choice(versions))) for name in sorted(to)]
            recipes.append((f"c{at:04}", version, of))
    return recipes, [("c0000", "*"), ("c0001", "*")]


def pins(share):
    """One version with that share, else that one and all above."""
    return lambda draw: "" if draw.random() < share else ">="


def caret(draw):
    return draw.choice(["^", ">="])


def tilde(draw):
    return draw.choice(["~", "^"])


def releases(count):
    """So many versions as of a component that lives: four majors, each with minors and patches."""
    return sorted((1 + at % 4, at // 4 % 3, at // 12) for at in range(count))


def following(names, versions, needs, end=False):
    """Each version needs the next names, from its own version on; and the last one may be wanted in a version that there is not."""
    def of(at, version):
        return [(f"c{name:04}", f">={version}.0.0") for name in range(at + 1, min(names, at + 1 + needs))]
    return [(f"c{at:04}", (v, 0, 0), of(at, v)) for at in range(names) for v in range(1, versions + 1)], [("c0000", "*")] + (
        [(f"c{names - 1:04}", "9999.0.0")] if end else [])


def free(names, versions):
    """All are wanted, and nothing is needed."""
    return [(f"c{at:04}", version, []) for at in range(names) for version in plain(versions)], [(f"c{at:04}", "*") for at in range(names)]


def chain(names, versions, end):
    """Each version needs the same version of the next name; what is wanted beside the first name may clash with the last."""
    def of(at, version):
        return [(f"c{at + 1:04}", text(version))] if at + 1 < names else []
    recipes = [(f"c{at:04}", version, of(at, version)) for at in range(names) for version in plain(versions)]
    return recipes, [("c0000", "*")] + ([(f"c{names - 1:04}", "9999.0.0")] if end else [])


def late(names, versions):
    """`z` needs a version of `y` that there is not, beside names that have no part in it."""
    recipes, wanted = free(names, versions)
    return recipes + [("y", (1, 0, 0), []), ("z", (1, 0, 0), [("y", "^2.0.0")])], wanted + [("z", "*")]


def roots(seed, names, versions):
    """Two components want different versions of one late name of an ordinary library."""
    recipes, wanted = drawn(seed, names, plain(versions), 3, caret)
    last = f"c{names // 2:04}"
    return recipes + [("r1", (1, 0, 0), [(last, "1.0.0")]), ("r2", (1, 0, 0), [(last, "2.0.0")])], wanted + [("r1", "*"), ("r2", "*")]


def ring(names, versions):
    """Each version needs the next name, and the last name the first."""
    return [(f"c{at:04}", version, [(f"c{(at + 1) % names:04}", "*")]) for at in range(names) for version in plain(versions)], [("c0000", "*")]


def one_each(seed, names, versions):
    """Each version needs one other name: each set has a cycle."""
    draw = random.Random(seed)
    def of(at):
        return [(f"c{(at + draw.randrange(1, names)) % names:04}", "*")]
    return [(f"c{at:04}", version, of(at)) for at in range(names) for version in plain(versions)], [("c0000", "*")]


def pigeons(holes):
    """One name more than there are holes; each sits in one of them, and a hole is that of one name."""
    birds = [f"b{at:02}" for at in range(holes + 1)]
    recipes = [(bird, version, [(f"h{version[0]:02}", f"{at + 1}.0.0")]) for at, bird in enumerate(birds) for version in plain(holes)]
    recipes += [(f"h{hole:02}", version, []) for hole in range(1, holes + 1) for version in plain(holes + 1)]
    return recipes, [(bird, "*") for bird in birds]


# Of each: how it ends. "set": some set is valid, "large": one is, of more components than a device takes, "none": none is,
# "spent": the search gives up.
FAMILIES = [
    ("pins 30%, 20 x 5 x 3", "set", lambda: drawn(1, 20, plain(5), 3, pins(0.3))),
    ("pins 30%, 32 x 32 x 4", "set", lambda: drawn(1, 32, plain(32), 4, pins(0.3))),
    ("pins 10%, 50 x 20 x 3", "set", lambda: drawn(1, 50, plain(20), 3, pins(0.1))),
    ("pins 30%, 50 x 20 x 3", "set", lambda: drawn(2, 50, plain(20), 3, pins(0.3))),
    ("pins 10%, 50 x 20 x 8", "set", lambda: drawn(1, 50, plain(20), 8, pins(0.1))),
    ("pins 30%, 50 x 20 x 8", "set", lambda: drawn(1, 50, plain(20), 8, pins(0.3))),
    ("pins 30%, 100 x 10 x 6", "set", lambda: drawn(1, 100, plain(10), 6, pins(0.3))),
    ("pins 30%, 128 x 8 x 8", "set", lambda: drawn(1, 128, plain(8), 8, pins(0.3))),
    ("pins 30%, 50 x 20 x 8, no set", "none", lambda: drawn(1, 50, plain(20), 8, pins(0.3), has_set=False)),
    ("^ and >=, 100 x 10 x 6", "set", lambda: drawn(1, 100, plain(10), 6, caret)),
    ("^ and >=, 128 x 8 x 8", "set", lambda: drawn(1, 128, plain(8), 8, caret)),
    ("~ and ^, 30 x 18 x 3", "set", lambda: drawn(2, 30, releases(18), 3, tilde)),
    ("~ and ^, 40 x 24 x 3", "set", lambda: drawn(1, 40, releases(24), 3, tilde)),
    ("~ and ^, 25 x 36 x 3", "set", lambda: drawn(1, 25, releases(36), 3, tilde)),
    ("~ and ^, 40 x 25 x 2", "set", lambda: drawn(3, 40, releases(25), 2, tilde)),
    ("~ and ^, 40 x 25 x 2, no set", "none", lambda: drawn(3, 40, releases(25), 2, tilde, has_set=False)),
    ("1,024 names, next 64", "large", lambda: following(1024, 1, 64)),
    ("1,024 names, next 64, no end", "none", lambda: following(1024, 1, 64, True)),
    ("64 names x 16, next 64", "set", lambda: following(64, 16, 64)),
    ("128 wanted x 8", "set", lambda: free(128, 8)),
    ("chain of pins 64 x 16", "set", lambda: chain(64, 16, False)),
    ("chain of pins, no such end", "none", lambda: chain(64, 16, True)),
    ("late clash 100 x 10", "none", lambda: late(100, 10)),
    ("two roots clash, 50 x 20", "none", lambda: roots(1, 50, 20)),
    ("cycles back 10%, 50 x 20 x 3", "none", lambda: drawn(1, 50, plain(20), 3, caret, 0.1)),
    ("cycles back 30%, 50 x 20 x 3", "none", lambda: drawn(1, 50, plain(20), 3, caret, 0.3)),
    ("cycles back 50%, 100 x 10 x 3", "none", lambda: drawn(1, 100, plain(10), 3, caret, 0.5)),
    ("ring of 100 x 10", "none", lambda: ring(100, 10)),
    ("one need each, 100 x 10", "none", lambda: one_each(1, 100, 10)),
    ("pigeons 6", "none", lambda: pigeons(6)),
    ("pigeons 8", "none", lambda: pigeons(8)),
    ("pigeons 9", "none", lambda: pigeons(9)),
    ("pigeons 12", "spent", lambda: pigeons(12)),
]
