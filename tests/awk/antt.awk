# Functions on lines of antt, for the other programs here. `faults` names the file to which a fault is written, a line for each.

# what stands in a line after the bracketed parameters at its start
function past_parameters(line,    i, c, depth) {
    for (i = 1; i <= length(line); i++) {
        c = substr(line, i, 1)
        if (c == "(" || c == "{") depth++
        else if (c == ")" || c == "}") depth--
        else if (c != " " && !depth) break
    }
    return substr(line, i)
}

# the name that a line declares, or the empty text
function declared(line,    form) {
    sub(/^ +/, "", line)
    while (match(line, /^(abbrev|unfoldable|pub|ruleset) /)) line = substr(line, RLENGTH + 1)
    form = sub(/^(record|data) /, "", line)
    if (!form && line !~ / :( |$)/ || line ~ /^(--|use |mod |module |infix|open |unfolding )/) return ""
    match(line, /^[^ ]+/)
    if (form || past_parameters(substr(line, RLENGTH + 1)) ~ /^:( |$)/) return substr(line, 1, RLENGTH)
    return ""
}

# of a line `use MODULE.{NAME, NAME as OTHER, ..}` or `use MODULE as OTHER`, in code too: the module, or the empty text
function used_module(line) {
    if (!sub(/^(ghost |unfoldable )?(pub )?use /, "", line)) return ""
    sub(/\.\{.*/, "", line)
    sub(/( as .*|;)$/, "", line)
    return line
}

# and the names, as `NAME` or `NAME as OTHER`, into the array `names`; their count
function used_names(line, names) {
    if (!sub(/^[^{]*\{/, "", line)) return 0
    sub(/\}.*/, "", line)
    return split(line, names, /, */)
}

# whether a module is of a crate of the repository; `crates` names these, with spaces around each
function is_own(module,    part) {
    split(module, part, ".")
    return part[1] == "Rattle" && index(crates, " " part[2] " ")
}

# the file of definitions that a module of the repository is; the empty text for types that the code declares, and for other modules
function file_of(module,    crate, rest) {
    if (!is_own(module) || !match(module, /\.specs\./)) return ""
    rest = substr(module, RSTART + RLENGTH)
    if (rest ~ /^declared\./) return ""
    crate = substr(module, length("Rattle.") + 1)
    sub(/\..*/, "", crate)
    gsub(/\./, "/", rest)
    return "crates/" crate "/specs/" rest ".antt"
}

function fault(text) { print "trust: " text >> faults }
