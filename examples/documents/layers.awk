# Reads crates.txt and the table of the layers in ARCHITECTURE.md. Prints where a crate of the table stands on one that is not on a
# lower line, and each crate but the tests that is not in the table.
FILENAME ~ /crates\.txt$/ {
    sub(/#.*$/, "")
    if (match($0, /^[a-z_0-9]+:/)) {
        crate = substr($0, 1, RLENGTH - 1)
        needs[crate] = substr($0, RLENGTH + 1)
    }
    next
}
/^## / {
    on = $0 == "## The layers"
}
on && /^\| / {
    level++
    while (match($0, /`[a-z_0-9]+`/)) {
        levels[substr($0, RSTART + 1, RLENGTH - 2)] = level
        $0 = substr($0, RSTART + RLENGTH)
    }
}
END {
    for (crate in needs) {
        if (!(crate in levels)) {
            if (crate !~ /^test_/ && crate != "nuc_vectors") {
                print "docs/ARCHITECTURE.md: " crate " is not in the table of the layers"
                bad = 1
            }
            continue
        }
        count = split(needs[crate], each, " ")
        for (at = 1; at <= count; at++) {
            if (each[at] in needs && levels[each[at]] <= levels[crate]) {
                print "docs/ARCHITECTURE.md: " crate " stands on " each[at] ", which is not lower in the table of the layers"
                bad = 1
            }
        }
    }
    exit bad
}
