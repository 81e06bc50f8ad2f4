# Looks up the numbers of the file `numbers` in the code and in the documents. What it prints does not agree.

# The number of a constant, in digits, or nothing.
function value(file, name,    line, found, parts) {
    found = ""
    while ((getline line < (root "/" file)) > 0) {
        if (line ~ ("const " name ": [a-z0-9]+ = ")) {
            sub(/^.* = /, "", line)
            sub(/;.*$/, "", line)
            gsub(/_/, "", line)
            found = line
        }
    }
    close(root "/" file)
    if (found ~ /^[0-9]+ << [0-9]+$/) {
        split(found, parts, " << ")
        found = sprintf("%.0f", parts[1] * 2 ^ parts[2])
    }
    return found ~ /^[0-9]+$/ ? found : ""
}

# In threes.
function in_threes(digits,    text) {
    text = ""
    while (length(digits) > 3) {
        text = "," substr(digits, length(digits) - 2) text
        digits = substr(digits, 1, length(digits) - 3)
    }
    return digits text
}

# The document in one line.
function text_of(document,    line) {
    if (!(document in texts)) {
        while ((getline line < (root "/" document)) > 0) {
            texts[document] = texts[document] " " line
        }
        close(root "/" document)
        gsub(/[ \t]+/, " ", texts[document])
    }
    return texts[document]
}

function fault(words) {
    print FILENAME ":" FNR ": " words
    bad = 1
}

/^#/ || /^$/ {
    next
}
{
    at = index($0, " | ")
    split(substr($0, 1, at - 1), head, " ")
    rest = substr($0, at + 3)
    at = index(rest, " | ")
    document = substr(rest, 1, at - 1)
    said = substr(rest, at + 3)
    name = head[2]
    wanted = name ~ /=/ ? substr(name, index(name, "=") + 1) : ""
    divisor = name ~ /\// ? substr(name, index(name, "/") + 1) : 1
    sub(/[=\/].*$/, "", name)
    number = value(head[1], name)
    if (number == "") {
        fault("no number " name " in " head[1])
    } else if (wanted != "" && number != wanted) {
        fault(name " is " number " in " head[1] ", and not " wanted)
    } else {
        shown = in_threes(divisor == 1 ? number : sprintf("%.0f", number / divisor))
        if (at = index(said, "@")) {
            said = substr(said, 1, at - 1) shown substr(said, at + 1)
        }
        if (!index(text_of(document), said)) {
            fault(document " does not say \"" said "\", as " name " in " head[1] " asks")
        }
    }
}
END {
    exit bad
}
