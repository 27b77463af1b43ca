# The crates as a picture: crates.txt to Graphviz. A heading '# ---- ..' of crates.txt is a box; an arrow goes from a crate to each one
# that it stands on, but for those that it reaches by way of another.
/^# ---- / { heading = substr($0, 8); boxes[++box_count] = heading; next }
/^#/ { about = substr($0, 3); next }
/^[a-z_0-9]+( staticlib)?:/ {
    name = $1
    sub(/:$/, "", name)
    names[++count] = name
    box[name] = box_count
    comment[name] = about
    for (i = 2; i <= NF; i++) listed[name, $i] = 1
}

function reaches(from, to, i) {
    if (listed[from, to]) return 1
    for (i = 1; i <= count; i++)
        if (listed[from, names[i]] && reaches(names[i], to)) return 1
    return 0
}

# a crate that another one listed reaches anyway
function is_implied(from, to, i) {
    for (i = 1; i <= count; i++)
        if (names[i] != to && listed[from, names[i]] && reaches(names[i], to)) return 1
    return 0
}

END {
    print "// made from crates.txt by `make map`"
    print "digraph crates {"
    print "    rankdir = TB;"
    print "    node [shape = box, fontname = \"sans-serif\"];"
    for (b = 1; b <= box_count; b++) {
        printf "    subgraph cluster_%d {\n        label = \"%s\";\n        fontname = \"sans-serif\";\n", b, boxes[b]
        for (i = 1; i <= count; i++)
            if (box[names[i]] == b) printf "        %s [tooltip = \"%s\"];\n", names[i], comment[names[i]]
        print "    }"
    }
    for (i = 1; i <= count; i++)
        for (j = 1; j <= count; j++)
            if (listed[names[i], names[j]] && !is_implied(names[i], names[j])) printf "    %s -> %s;\n", names[i], names[j]
    print "}"
}
