# What the check of each crate said: the functions proved, and what is assumed. Files: target/log/CRATE.say of proved crates. A library
# assumes nothing, and one logic proved all.
function finish(    n, i, part, pair, value, line) {
    if (crate == "") return
    n = split(verdict, part, " ")
    for (i = 1; i <= n; i++) {
        if (split(part[i], pair, "=") != 2) continue
        value[pair[1]] = pair[2]
        if (pair[2] == "trusted" && !(pair[1] in kept)) { kept[pair[1]]; as_built = as_built ", " pair[1] }
    }
    if (!n) { fault("target/log/" crate ".say has no verdict: rm target/stamp/" crate "; ./prove " crate); return }
    printf "   %-12s functions=%-3s axioms=%s%s\n", crate, value["functions"], value["axioms"] + 0, assumed
    if ("foreign" in value) fault("crates/" crate ": a function of another language")
    if (value["axioms"] > 0 && (getline line < ("crates/" crate "/src/main.rt")) < 0)
        fault("crates/" crate ": a library that assumes something")
    if (sum != "" && sum != value["sum"]) fault("crates/" crate " was proved by another logic than the crates before it: ./prove")
    sum = value["sum"]
    native = value["native"]
}
FNR == 1 { finish(); crate = FILENAME; gsub(/.*\/|\.say$/, "", crate); verdict = assumed = "" }
/^logic=proved / { verdict = $0 }
/^axioms .*: none reached / { next }
sub(/^axioms /, "") { assumed = assumed "  " $0 }
END {
    finish()
    print "   logic: sum=" sum ", native numbers and texts: " native
    print "   trusted as built before: " substr(as_built, 3) " (`rt ci` proves without the work that a check kept, which is `incremental`)"
}
