# Looks up each name in backticks of the documents. Reads the names (names.awk), the words of the tree, the words that are none of
# it, and then the documents. What it prints is not there.
#
#   `crate::function.clause`, `Type::function.clause`, `function.clause`, `Definition.field`   exactly so
#   `.clause` behind one of these on its line                                                   of the same function or definition
#   `name` of `crate`, the crate behind it on its line                                          a name of that crate
#   `crate::name`, `name`                                                                       a name of that crate, of the tree
#   `crates/..`, `docs/..`, `examples/..`, `contrib/..`                                         a file or a folder

function missing(span) {
    print FILENAME ":" FNR ": `" span "` is not there"
    bad = 1
}

# A clause of a function, or a field of a definition, in this crate or, where that is empty, in any.
function has_part(crate, owner, part) {
    return ((crate SUBSEP owner SUBSEP part) in parts)
}

# Whether the name is that of a clause of the crate's function of the crate's name, as `nucleus` of `nucleus` is.
function has_clause(crate, name) {
    return (("" SUBSEP crate SUBSEP name) in parts)
}

# Whether it is that of a file of the crate's definitions.
function has_file(crate, name) {
    return system("test -e '" root "/crates/" crate "/specs/" name ".antt'") == 0
}

# Whether the name stands in the crate, as code or as a definition.
function has_name(crate, name) {
    return ((crate SUBSEP name) in named)
}

function check(span,    pieces, count, head, last, owner, crate) {
    if (span in others) {
        return
    }
    if (span ~ /^(crates|docs|examples|contrib)\/[A-Za-z0-9_.\/-]+$/) {
        if (system("test -e '" root "/" span "'") != 0) {
            missing(span)
        }
        return
    }
    if (span ~ /^\.[a-z_0-9]+$/) {
        if (!has_part("", said_owner, substr(span, 2))) {
            missing(said_owner span)
        }
        return
    }
    if (span !~ /^[A-Za-z_][A-Za-z_0-9]*((::|\.)[A-Za-z_][A-Za-z_0-9]*)*$/) {
        return
    }
    count = split(span, pieces, /::|\./)
    if (count == 1) {
        if (!(span in words)) {
            missing(span)
        }
        if (span in owners) {
            said_owner = span
        }
        return
    }
    head = pieces[1]
    last = pieces[count]
    crate = (span ~ /::/ && head in crates) ? head : ""
    if (span ~ /\./) {
        owner = pieces[count - 1]
        if (has_part(crate, owner, last)) {
            said_owner = owner
        } else {
            missing(span)
        }
        return
    }
    if (crate != "" ? !has_name(crate, last) : !((head in words) && (last in words))) {
        missing(span)
    }
}

FILENAME == names {
    if ($1 == "clause" || $1 == "field") {
        parts[$2, $3, $4] = 1
        parts["", $3, $4] = 1
        owners[$3] = 1
        named[$2, $3] = 1
    } else {
        named[$2, $3] = 1
    }
    next
}
FILENAME == tree {
    words[$1] = 1
    next
}
FILENAME == outside {
    others[$1] = 1
    next
}
FILENAME == listed {
    crates[$1] = 1
    next
}
FNR == 1 {
    fenced = 0
}
/^ *```/ {
    fenced = !fenced
    next
}
fenced || /^    [^ -]/ {
    next
}
{
    said_owner = ""
    line = $0
    while (match(line, /`[^`]+`/)) {
        span = substr(line, RSTART + 1, RLENGTH - 2)
        check(span)
        line = substr(line, RSTART + RLENGTH)
        if (span ~ /^[A-Za-z_][A-Za-z_0-9]*$/ && match(line, /^ of `[a-z_0-9]+`/)) {
            crate = substr(line, 6, RLENGTH - 6)
            if (crate in crates && !has_name(crate, span) && !has_clause(crate, span) && !has_file(crate, span)) {
                missing(span "` of `" crate)
            }
        }
    }
}
END {
    exit bad
}
