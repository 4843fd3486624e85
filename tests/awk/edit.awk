# A must-fail edit applied to a copy of its crate, as `rt` does: under a line `file:`, each `old:` text, which must stand once in the file,
# gives way to the `new:` text. Writes the changed lines, old and new. File: the edit. `folder`: the copy; `crate`: what to call it.
function read_all(path,    line, text) {
    while ((got = (getline line < path)) > 0) text = text line "\n"
    close(path)
    return text
}
function bad(text) { print "replay: " text > "/dev/stderr"; failed = 1; exit 2 }
function line_at(text, at,    from, to) {
    for (from = at; from > 1 && substr(text, from - 1, 1) != "\n"; from--) continue
    to = index(substr(text, at), "\n")
    return substr(text, from, at - from + to - 1)
}
/^file: / { file = substr($0, 7) }
/^old: / { old = substr($0, 6) }
/^new:/ {
    new = substr($0, 5)
    sub(/^ /, "", new)
    if (file !~ /^(src|specs|proofs)\// || file ~ /\.\./) bad("the edit names no file of src, specs or proofs")
    text = read_all(folder "/" file)
    if (got < 0) bad("the edit names no file of its crate: " file)
    at = index(text, old)
    if (old == "" || !at || index(substr(text, at + length(old)), old)) bad("its old text does not stand once in " file)
    before = substr(text, 1, at - 1)
    number = gsub(/\n/, "\n", before) + 1
    print "  " crate "/" file ":" number
    print "  - " line_at(text, at)
    text = before new substr(text, at + length(old))
    print "  + " line_at(text, at)
    printf "%s", text > (folder "/" file)
    close(folder "/" file)
    pairs++
}
END { if (!failed && !pairs) bad("the edit has no old and new text") }
