#!/bin/sh
# Checks that every name that docs/PROMISES.md and docs/RULES.md mention exists: files, statements, theorems and must-fail edits.
#
# The two pages write a name in one of three ways, so that a reader finds it in one step and this script finds it at all:
#     [`Name`](../crates/CRATE/specs/File.antt)     that file is there; if it is .antt or .rt, it declares Name
#     [`Name`](..) → [`theorem`](..)                the theorem's declaration names the statement before the arrow
#     `crate/edit`                                  crates/crate/must-fail/edit.edit is there
# In PROMISES a row's second cell has such links and no other name; its fourth cell has edits and no other name, and is empty exactly if the
# third is, which names the wrong program. In RULES every line of prose has a link, and so has every row of a table with a column "statement".
# Every edit of the tree stands in PROMISES, and every crate of crates.txt in README's table or drawing.
set -eu
cd "$(dirname "$0")/.."
LC_ALL=C awk '
function complain(words) {
    print where ": " words
    wrong++
}

function bare(cell) {
    gsub(/^ +| +$/, "", cell)
    return cell
}

# The name that a line of a source declares, or nothing.
function declares(file, line,    word) {
    sub(/^ +/, "", line)
    if (file ~ /\.rt$/) {
        sub(/^pub +/, "", line)
        sub(/^extern "C" +/, "", line)
        if (line !~ /^(fn|struct|enum|const|type) /)
            return ""
        split(line, word, " ")
        sub(/[^A-Za-z0-9_].*/, "", word[2])
        return word[2]
    }
    sub(/^(abbrev|unfoldable) +/, "", line)
    sub(/^pub +/, "", line)
    split(line, word, " ")
    if (word[1] == "record" || word[1] == "data")
        return word[2]
    return word[2] == ":" ? word[1] : ""
}

# Fills declared[file, name] with the declaration: its line, and the lines after it that stand further in.
function load(file,    line, name, found, depth) {
    name = ""
    while ((getline line < file) > 0) {
        match(line, /^ */)
        found = declares(file, line)
        if (found != "") {
            name = found
            depth = RLENGTH
            declared[file, name] = line
            homes[name] = homes[name] " " file
        } else if (name != "" && depth < RLENGTH)
            declared[file, name] = declared[file, name] " " line
        else
            name = ""
    }
    close(file)
    is_source[file] = 1
}

function is_there(path) {
    if (!(path in there))
        there[path] = system("test -e \"" path "\"") == 0
    return there[path]
}

# Whether a declaration has this word.
function has_word(text, word) {
    gsub(/[()]/, " ", text)
    return index(" " text " ", " " word " ") > 0
}

# One link; `prior` is the name in the link before it where an arrow stands between the two. Gives its own name.
function check_link(link, prior,    cut, text, path, name) {
    cut = index(link, "](")
    text = substr(link, 2, cut - 2)
    path = substr(link, cut + 2, length(link) - cut - 2)
    if (path ~ /^https?:/)
        return ""
    if (!sub(/^\.\.\//, "", path))
        path = "docs/" path
    links++
    name = text ~ /^`[^`]+`$/ ? substr(text, 2, length(text) - 2) : ""
    if (!is_there(path))
        complain("there is no file " path (name == "" ? "" : ", where " name " should be; it is in" (name in homes ? homes[name] : " none")))
    else if (path !~ /\.(antt|rt)$/)
        return name
    else if (name == "")
        complain("the link to " path " names nothing that is declared there")
    else if (!(path in is_source))
        complain(path " is not a file of specs/, proofs/ or src/")
    else if (!((path, name) in declared))
        complain(name " is not declared in " path "; it is in" (name in homes ? homes[name] : " none"))
    else if (prior != "" && !has_word(declared[path, name], prior))
        complain(name " in " path " is no theorem of " prior)
    else
        names++
    return name
}

# All links of a line. Gives the line without them.
function check_links(line,    plain, between, name) {
    plain = ""
    name = ""
    while (match(line, /\[[^]]*\]\([^)]*\)/)) {
        between = substr(line, 1, RSTART - 1)
        plain = plain between
        link = substr(line, RSTART, RLENGTH)
        line = substr(line, RSTART + RLENGTH)
        name = check_link(link, between == " → " ? name : "")
    }
    return plain line
}

# All edits of a line without links. Gives the line without them.
function check_edits(line,    rest, edit, path) {
    rest = ""
    while (match(line, /`[a-z0-9_]+\/[a-z0-9_]+`/)) {
        edit = substr(line, RSTART + 1, RLENGTH - 2)
        rest = rest substr(line, 1, RSTART - 1)
        line = substr(line, RSTART + RLENGTH)
        path = edit
        sub(/\//, "/must-fail/", path)
        if (!is_there("crates/" path ".edit"))
            complain("there is no edit " edit)
        if (promises)
            named[edit] = 1
    }
    return rest line
}

# A row of PROMISES: sentence, statement and, in a table of four columns, wrong program and edits.
function check_row(row, columns,    n, cell) {
    n = split(row, cell, "|")
    if (n != columns)
        complain("the row has " n - 2 " cells and the head of its table " columns - 2)
    if (cell[3] !~ /\]\(/)
        complain("the row names no statement")
    gsub(/\[[^]]*\]\([^)]*\)/, "", cell[3])
    if (cell[3] ~ /`/)
        complain("a name among the statements is no link:" cell[3])
    if (n < 6)
        return
    gsub(/`[a-z0-9_]+\/[a-z0-9_]+`/, "edit", cell[5])
    if (cell[5] ~ /`/)
        complain("a name among the edits has not the form crate/edit:" cell[5])
    if ((bare(cell[4]) == "") != (bare(cell[5]) == ""))
        complain("a wrong program without an edit, or an edit without a wrong program")
    rows++
}

BEGIN {
    while (("ls crates/*/specs/*.antt crates/*/proofs/*.antt crates/*/src/*.rt" | getline file) > 0)
        load(file)
}

FNR == 1 { fenced = in_table = sections = 0; promises = FILENAME ~ /PROMISES/ }

{ where = FILENAME ":" FNR }

/^```/ { fenced = !fenced }

fenced || /^```/ { next }

/^## / { sections++ }

{
    plain = check_edits(check_links($0))
    row = /^\|/
    head = row && !in_table
    in_table = row
    if (head) {
        columns = split($0, cell, "|")
        stated = bare(cell[columns - 1]) == "statement"
    }
}

head || /^\|[-|]+$/ || /^#/ || /^$/ { next }

promises { if (row) check_row($0, columns) }

!promises && sections && !/\]\(/ && (!row || stated) { complain("no statement is linked here") }

END {
    where = "docs/PROMISES.md"
    while (("ls crates/*/must-fail/*.edit" | getline edit) > 0) {
        sub(/^crates\//, "", edit)
        sub(/must-fail\//, "", edit)
        sub(/\.edit$/, "", edit)
        edits++
        if (!(edit in named))
            complain("the edit " edit " is not named")
    }
    where = "README.md"
    while ((getline line < "README.md") > 0) {
        if (line ~ /^<!-- crates: /)
            drawing = line ~ /drawn/
        else if (drawing && line ~ /^ /) {
            split(line, word, " ")
            shown[word[1]] = 1
        } else if (line ~ /^\|/)
            for (; match(line, /`[a-z0-9_]+`/); line = substr(line, RSTART + RLENGTH))
                shown[substr(line, RSTART + 1, RLENGTH - 2)] = 1
    }
    while ((getline line < "crates.txt") > 0) {
        if (line !~ /^[a-z0-9_]+( staticlib)?:/)
            continue
        sub(/[ :].*/, "", line)
        crates++
        if (!(line in shown))
            complain("the crate " line " is not in the table or the drawing")
    }
    if (wrong) {
        print wrong " names are wrong or missing"
        exit 1
    }
    print "names: " names " statements and theorems, " links - names " other files, " edits " edits in " rows " rows, " crates " crates: all there"
}
' docs/PROMISES.md docs/RULES.md
