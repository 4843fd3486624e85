# The crates that crates.txt lists, in its order: those named in `wanted`, with all that they use, or else every one. File: crates.txt.
{ sub(/#.*/, "") }
(colon = index($0, ":")) {
    crate = substr($0, 1, colon - 1)
    sub(/^[ \t]+/, "", crate)
    sub(/[ \t].*/, "", crate)
    listed[++count] = crate
    uses[crate] = substr($0, colon + 1)
}
function visit(crate,    names, n, i) {
    if (crate in chosen || !(crate in uses)) return
    chosen[crate]
    n = split(uses[crate], names, " ")
    for (i = 1; i <= n; i++) visit(names[i])
}
END {
    n = split(wanted, names, " ")
    for (i = 1; i <= n; i++) {
        if (!(names[i] in uses)) { print "prove: crates.txt has no crate " names[i] > "/dev/stderr"; exit 2 }
        visit(names[i])
    }
    for (i = 1; i <= count; i++) if (!n || listed[i] in chosen) print listed[i]
}
