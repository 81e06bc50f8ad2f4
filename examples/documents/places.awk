# Where the documents say that a name stands: a line each of the document, its line, the name and the files of the links behind it.
# In the tables of the way of a command, in ARCHITECTURE.md, the names of functions stand before the links to their files; elsewhere a name
# is said to be there by "`a`, `b` and `c` in [x](FILE)".

# The path of a link, from the document's folder.
function path(link,    target) {
    target = link
    sub(/^.*\]\(/, "", target)
    sub(/\)$/, "", target)
    sub(/#.*$/, "", target)
    return folder target
}

function tell(    at, count, each) {
    count = split(names, each, " ")
    for (at = 1; at <= count; at++) {
        print FILENAME, FNR, each[at], files
    }
    names = ""
    files = ""
}

FNR == 1 {
    folder = FILENAME
    sub(/[^\/]*$/, "", folder)
    is_way = 0
}
/^## / {
    is_way = FILENAME ~ /ARCHITECTURE\.md$/ && /^## The way of a command/
}
/^    / || !/\]\([^)]*\.(rt|antt)[)#]/ {
    next
}
{
    is_row = is_way && /^\|/
    names = ""
    files = ""
    line = $0
    while (match(line, /`[^`]+`|\[[^]]*\]\([^)]*\)/)) {
        between = substr(line, 1, RSTART - 1)
        token = substr(line, RSTART, RLENGTH)
        line = substr(line, RSTART + RLENGTH)
        if (token ~ /^`/) {
            if (files != "") {
                tell()
            }
            token = substr(token, 2, length(token) - 2)
            # A function of a type.
            sub(/^[A-Z][A-Za-z_0-9]*::/, "", token)
            if (!is_row && between !~ /^(, | and )$/) {
                names = ""
            }
            if (is_row ? token ~ /^[a-z_][a-z_0-9]*$/ : token ~ /^[A-Za-z_][A-Za-z_0-9]*$/) {
                names = names " " token
            }
        } else if (token ~ /\.(rt|antt)[)#]/ && names != "" && (is_row || files != "" || between == " in ")) {
            files = files " " path(token)
        } else if (files != "") {
            tell()
        } else {
            names = ""
        }
    }
    if (files != "") {
        tell()
    }
}
