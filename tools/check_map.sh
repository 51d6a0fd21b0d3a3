#!/bin/sh
# Compares crates.txt with the head of each crate's root file, which says its layer and the crates that it
# stands on, in their order, and with the map in docs/ARCHITECTURE.md, which has the same crates in the same
# order under the same layers. Prints each disagreement, and fails where there is one. Run at the top of the
# repository.
set -u
awk '
function fail(text) { print "map: " text; bad = 1 }
function listed(names,   out, i, n, part) {          # "a b kit" -> "`a`, `b`", own crates only
    n = split(names, part, " "); out = ""
    for (i = 1; i <= n; i++) if (part[i] in layer) out = out (out == "" ? "" : ", ") "`" part[i] "`"
    return out == "" ? "nothing" : out
}
/^# ---- [0-9]/ { number = $3; next }
/^[a-z0-9_]/ {
    line = $0; sub(/#.*/, "", line); split(line, half, ":"); split(half[1], word, " "); name = word[1]
    n = split(half[2], dep, " ")
    for (i = 1; i <= n; i++) if (!(dep[i] in layer) && system("test -d crates/" dep[i]) == 0)
                                  fail("crates.txt: " name " uses " dep[i] ", which stands below it")
    if (number == "") fail("crates.txt: " name " stands under no layer")
    layer[name] = number; deps[name] = half[2]; order[++count] = name
}
END {
    # A row of the map: its layer, or nothing where that is the layer of the row above, and its crate.
    while ((getline text < "docs/ARCHITECTURE.md") > 0) {
        if (text !~ /^\|[^|]*\| `[a-z0-9_]+` \|[^|]*\|$/) { mapped += rows > 0 && text ~ /^#/; continue }
        if (mapped) continue
        split(text, cell, "|"); split(cell[2], word, " "); if (word[1] != "") under = word[1]
        row[++rows] = cell[3]; gsub(/[ `]/, "", row[rows])
        if (under != layer[row[rows]]) fail("docs/ARCHITECTURE.md: `" row[rows] "` under layer " under)
    }
    if (rows != count) fail("docs/ARCHITECTURE.md: the map has " rows " crates of " count)
    for (k = 1; k <= count; k++) {
        name = order[k]; file = "crates/" name "/src/lib.rt"
        if (system("test -f " file) != 0) file = "crates/" name "/src/main.rt"
        head = " "; while ((getline text < file) > 0 && text ~ /^\/\/!/) head = head substr(text, 5) " "
        close(file)
        if (!index(head, " Layer " layer[name] ". ")) fail(file ": no `Layer " layer[name] ".`")
        if (!index(head, "Stands on: " listed(deps[name]) ".")) fail(file ": no `Stands on: " listed(deps[name]) ".`")
        if (!index(head, " Promises: ")) fail(file ": no `Promises: ..`")
        if (row[k] != name) fail("docs/ARCHITECTURE.md: `" row[k] "` in the place of `" name "`")
    }
    exit bad
}' crates.txt
