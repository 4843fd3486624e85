# Entry points: signature and contract as written, and where each definition in the contract stands. Of a library these are its public
# functions; of a program (`program` is 1) its `main`, `answer_input`, which is all that `main` calls, and the one function that writes, whose
# `requires` says what is written. No entry point may have a `requires`; a definition of a working file needs a law. `headers_table` and `names_table` are the tables; what the
# contracts import goes to `uses_table`, as from trusted files.

# a call that writes: a method or function of std or of the C library whose name says so, or a macro
function is_write(line) {
    return line ~ /(\.|::)p?(write|write_[a-z_]+|print_[a-z_]+|copy)\(/ || line ~ /(^|[^a-z_])(e?print|e?println|write|writeln)!/
}

function asks(text) { return text ~ /[\n ]requires / }

function tell(place, text,    n, i, word, path, told) {
    print "   " place text
    gsub(/[(){}\n]/, " ", text)
    gsub(/\.now /, " now ", text)
    # what the braces of a clause hold is a fact
    if (text ~ / (requires|ensures) /) text = text " ⌜◌⌝"
    n = split(text, word, " ")
    for (i = 1; i <= n; i++) {
        if (!(word[i] in module) || word[i] in told) continue
        told[word[i]]
        print FILENAME "\t" module[word[i]] "\t" original[word[i]] >> uses_table
        path = file_of(module[word[i]])
        if (path == "") continue
        print "         " word[i] "  " path ":" line_of[path, original[word[i]]] (kind[path] == "Working" ? "  (working)" : "")
        if (kind[path] == "Working" && laws[path] == "")
            fault(place ": the contract uses `" word[i] "` of " path ", whose header names no law")
    }
}

# the names that a line imports, as contracts have them: an operator has no `◌` there
function import(line,    n, i, list, pair, name) {
    n = used_names(line, list)
    for (i = 1; i <= n; i++) {
        split(list[i], pair, " as ")
        name = 2 in pair ? pair[2] : pair[1]
        if (name ~ /^◌.*◌$/) gsub(/◌/, "", name)
        module[name] = used_module(line)
        original[name] = pair[1]
    }
}

# what the toolchain lends to every contract
function lend() {
    split("", module)
    module["now"] = "denote.Bor"
    original["now"] = "now"
    module["⌜◌⌝"] = "contract.Notation"
    original["⌜◌⌝"] = "⌜◌⌝"
}

BEGIN {
    FS = "\t"
    while ((getline < headers_table) > 0) { kind[$1] = $2; laws[$1] = $3 }
    while ((getline < names_table) > 0) if (!(($2, $1) in line_of)) line_of[$2, $1] = $3
    FS = " "
}
FNR == 1 { lend() }
/^ *\/\// { next }
/^ghost use / { import($0) }
/^pub mod / && !program { fault(FILENAME ":" FNR ": a public module: an entry crate has its public functions in lib.rt") }
/^ *use / && /[^a-zA-Z_](write|write_[a-z_]+|print_[a-z_]+|copy|Write as|Print as)([^a-zA-Z_]|$)/ { fault(FILENAME ":" FNR ": a write is called by its path, so that it is seen") }

/^ *(pub )?(unsafe )?(extern "C" )?fn / { place = FILENAME ":" FNR; text = ""; signing = 1; entry = program ? /fn (main|answer_input)[(<]/ : /^ *pub / }
signing {
    body = /\{$/ || /fn .*\{.*\}$/
    line = $0
    if (body) sub(/ *\{.*/, "", line)
    if (line != "") text = text "\n       " line
    signing = !body
    if (body && entry) {
        entries++
        tell(place, text)
        if (asks(text)) fault(place ": an entry point has a `requires`")
    }
}
program && is_write($0) {
    if (++writes > 1) { fault(FILENAME ":" FNR ": a second place that writes; the first is in the function at " writer); next }
    writer = place
    print "   the one place that writes:"
    tell(place, text)
    if (!asks(text)) fault(place ": the function that writes has no `requires`, so no contract says what is written")
}
END {
    if (!entries) fault(FILENAME ": no entry point was found")
    if (program && !writes) fault(FILENAME ": no call that writes was found")
}
