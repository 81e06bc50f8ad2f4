# The names of the crates' code and definitions, one a line:
#   fn CRATE FUNCTION, clause CRATE FUNCTION CLAUSE, type CRATE TYPE, field CRATE DEFINITION FIELD, def CRATE DEFINITION
FNR == 1 {
    split(FILENAME, parts, "/")
    crate = parts[2]
    owner = ""
    record = ""
}
FILENAME ~ /\.rt$/ {
    if (match($0, /^ *(pub(\([a-z]+\))? )?(const )?fn [a-z_0-9]+/)) {
        owner = substr($0, RSTART, RLENGTH)
        sub(/^.*fn /, "", owner)
        print "fn", crate, owner
    } else if (match($0, /^ *(pub(\([a-z]+\))? )?(struct|enum|trait|type|const) [A-Za-z_0-9]+/)) {
        name = substr($0, RSTART, RLENGTH)
        sub(/^.* /, "", name)
        print "type", crate, name
    }
    if (match($0, /^ *(ensures|requires) [a-z_0-9]+ \{/)) {
        name = $2
        print "clause", crate, owner, name
    }
    if (match($0, /^ *ghost [a-z_0-9]+[:= ]/)) {
        print "type", crate, $2
    }
}
FILENAME ~ /\.antt$/ {
    if (match($0, /^ *(abbrev |unfoldable )*(pub )?(record )?[A-Za-z_0-9]+ [:({]/) && $0 !~ /^ *use /) {
        name = substr($0, RSTART, RLENGTH)
        is_record = name ~ /record /
        sub(/ [:({]$/, "", name)
        sub(/^.* /, "", name)
        indented = match($0, /^ +/) ? RLENGTH : 0
        if (is_record) {
            record = name
            depth = indented
            print "def", crate, name
        } else if (record != "" && indented > depth) {
            print "field", crate, record, name
        } else {
            record = ""
            print "def", crate, name
        }
    } else if ($0 ~ /^ *(pub )?record /) {
        name = $0
        sub(/^ *(pub )?record /, "", name)
        sub(/ .*$/, "", name)
        record = name
        depth = match($0, /^ +/) ? RLENGTH : 0
        print "def", crate, name
    }
}
