# The claims: each theorem of claims/proofs with its statement, and the definitions of claims/specs that the statement names. These must
# use every other public definition of claims/specs. Files: those of claims/specs, then those of claims/proofs.

# the words of a line, without brackets and comments
function words(line, word) {
    sub(/--.*/, "", line)
    gsub(/[(){};,]/, " ", line)
    return split(line, word, " ")
}
FNR == 1 { at = statement = "" }
/^ *--/ || /^use / { next }

FILENAME ~ /\/specs\// {
    name = declared($0)
    if (name != "" && /^(abbrev |unfoldable )?pub /) { at = name; place[name] = FILENAME ":" FNR; defined[++definitions] = name }
    n = words($0, word)
    for (i = 1; i <= n; i++) if (at != "") used[at] = used[at] " " word[i]
    next
}

# a statement goes on until its proof begins
statement != "" && (/^ *unfolding / || index($0, indent statement " ") == 1) { statement = "" }
statement != "" { text[statement] = text[statement] " " $0 }
/^ *pub / && (name = declared($0)) != "" {
    statement = theorem[++theorems] = name
    proved[name] = FILENAME ":" FNR
    match($0, /^ */)
    indent = substr($0, 1, RLENGTH)
    text[name] = $0
    sub(/^[^:]*: */, "", text[name])
}

function reach(name,    n, i, word) {
    if (name in reached) return
    reached[name]
    n = split(used[name], word, " ")
    for (i = 1; i <= n; i++) if (word[i] in place) reach(word[i])
}
function tell(name,    n, i, word, claims) {
    n = words(text[name], word)
    for (i = 1; i <= n; i++) if (word[i] in place) {
        print "   " word[i] "  " place[word[i]]
        claims++
        claimed[word[i]]
        reach(word[i])
    }
    gsub(/ +/, " ", text[name])
    print "       theorem " name " : " text[name] "  " proved[name]
    if (!claims) fault(proved[name] ": the theorem " name " states no claim of crates/claims/specs")
}
END {
    for (k = 1; k <= theorems; k++) tell(theorem[k])
    print "   parts of these"
    for (k = 1; k <= definitions; k++) {
        name = defined[k]
        if (!(name in reached)) fault(place[name] ": no theorem of crates/claims/proofs states " name)
        else if (!(name in claimed)) print "       " name "  " place[name]
    }
}
