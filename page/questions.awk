# Writes what the gallery says of each example, as JSON: its title, from the table of examples/README.md, and the question that it is
# asked, from there and from docs/use/studies.md.
#
#     awk -f questions.awk examples/README.md docs/use/studies.md

function quoted(text) {
    gsub(/`/, "", text)
    gsub(/\\/, "\\\\", text)
    gsub(/"/, "\\\"", text)
    gsub(/</, "\\u003c", text)
    return text
}

# The table: names of files, and what they model.
/^\| `[a-z_0-9]+\.sigma`/ {
    cells = split($0, cell, " \\| ")
    sub(/^\| /, "", cell[1])
    title = cell[2]
    sub(/ \|$/, "", title)
    sub(/ \(\[.*\)$/, "", title)
    sub(/; \[.*$/, "", title)
    files = split(cell[1], file, ", ")
    for (i = 1; i <= files; i++) {
        name = file[i]
        gsub(/`|\.sigma/, "", name)
        names[++count] = name
        titles[name] = title
    }
    next
}

# A question comes before the first command on its model.
/^\*\*The .*\*\* \*/ {
    question = $0
    sub(/^\*\*[^*]*\*\* \*/, "", question)
    sub(/\*.*$/, "", question)
}
/^\*\*Question\.\*\* / { asking = 1 }
/^$/ { asking = 0 }
asking && /\?$/ {
    question = $0
    sub(/^\*\*Question\.\*\* /, "", question)
}
question != "" && match($0, /examples\/[a-z_0-9]+\.sigma/) {
    name = substr($0, RSTART + 9, RLENGTH - 15)
    asked[name] = question
    question = ""
}
END {
    printf "{"
    for (i = 1; i <= count; i++) {
        printf "%s\n\"%s\":{\"title\":\"%s\",\"question\":\"%s\"}", (i > 1 ? "," : ""), names[i], quoted(titles[names[i]]), quoted(asked[names[i]])
    }
    print "}"
}
