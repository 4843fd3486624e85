# The headers of files of definitions: the file, `Trusted`, `Working` or `none`, and the laws that a working one names, with tabs
# between. A working header names a law if, after the word Working and before its glossary, it has a file of proofs that is there, or
# between backquotes the name of a law that is there: in one of these files, or in any if it has none. `names_table` is the table of names.

function is_there(file,    line) {
    if (!(file in there)) { there[file] = (getline line < file) >= 0; close(file) }
    return there[file]
}

# the file of proofs that a word is, seen from a crate's folder, or the empty text
function proofs_file(word, folder) {
    gsub(/`/, "", word)
    sub(/[.,:;)]+$/, "", word)
    sub(/^crates\//, "", word)
    if (word !~ /^([a-z_]+\/)?proofs\/./) return ""
    word = word ~ /^proofs\// ? folder "/" word : "crates/" word
    if (word ~ /\.antt$/) return word
    # the proof of a function is a folder
    if (is_there(word "/Answers.antt")) return word "/Answers.antt"
    if (is_there(word "/Proof.antt")) return word "/Proof.antt"
    return is_there(word "/Invariants.antt") ? word "/Invariants.antt" : word ".antt"
}

function is_law(name, count,    i) {
    if (count == 0) return name in law
    for (i = 1; i <= count; i++) if ((name, files[i]) in law_in) return 1
    return 0
}

# the laws that a header's text names; what it names and is nowhere is a fault
function laws(text, folder,    n, i, word, path, count, found) {
    n = split(text, word, " ")
    for (i = 1; i <= n; i++) {
        path = proofs_file(word[i], folder)
        if (path == "") continue
        if (is_there(path)) { files[++count] = path; found = found ", " path }
        else fault(file ": its header names " path ", which is not there")
    }
    n = split(text, word, "`")
    for (i = 2; i <= n; i += 2) {
        if (word[i] ~ /\//) continue
        if (is_law(word[i], count)) found = found ", `" word[i] "`"
        else if (!(word[i] in other))
            fault(file ": its header names `" word[i] "`, which is " (word[i] in law ? "not in the proofs that it names" : "nowhere"))
    }
    return substr(found, 3)
}

function finish(    folder, found) {
    if (file == "") return
    folder = file
    sub(/\/specs\/.*/, "", folder)
    if (kind == "none") fault(file ": its header says neither Trusted nor Working")
    if (kind == "Working") {
        found = laws(text, folder)
        if (found == "") fault(file ": its header says Working and names no law")
    }
    print file "\t" kind "\t" found
}

BEGIN {
    FS = "\t"
    while ((getline < names_table) > 0) {
        if ($2 ~ /\/proofs\//) { law[$1]; law_in[$1, $2] } else other[$1]
    }
}
FNR == 1 { finish(); file = FILENAME; kind = "none"; text = ""; header = 1 }
!/^--/ || /^--     / { header = 0 }
header && /^-- (Trusted|Working)/ { kind = substr($0, 4, 7) }
header && kind == "Working" { text = text " " substr($0, 4) }
END { finish() }
