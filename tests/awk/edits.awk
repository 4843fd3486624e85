# The must-fail edits: the first line says why the edit matters; the old text stands once in its file, in one line. Files: the edits.
function times(text, old,    n, at) {
    while ((at = index(text, old)) > 0) { n++; text = substr(text, at + length(old)) }
    return n + 0
}
# how often the text stands in the lines of a file, which is read once; -1 if there is no such file
function found(file, old,    line, n, i) {
    if (!(file in size)) {
        size[file] = 0
        while ((i = getline line < file) > 0) lines[file, ++size[file]] = line
        if (i < 0) size[file] = -1
        close(file)
    }
    if (size[file] < 0) return -1
    for (i = 1; i <= size[file]; i++) n += times(lines[file, i], old)
    return n + 0
}
function finish() { if (edit != "" && !pairs) fault(edit ": it has no old and new text") }
FNR == 1 {
    finish()
    edit = FILENAME
    folder = FILENAME
    sub(/\/must-fail\/.*/, "/", folder)
    file = old = ""
    pairs = 0
    if (!/^# ./) fault(FILENAME ": its first line does not say why it matters")
}
/^file: / { file = folder substr($0, 7) }
/^old: / {
    old = substr($0, 6)
    n = found(file, old)
    if (n < 0) fault(FILENAME ": it names no file of its crate")
    else if (n != 1) fault(FILENAME ": its old text stands " n " times in the lines of " file ", not once")
}
/^new:/ { pairs++ }
END { finish() }
