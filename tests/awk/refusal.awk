# What a check of a crate said, cut to what a reader needs: each fact that failed by itself (three at most), with its law and the line of
# its proof; the first function that is not proved, with its contract; and how many others rest on these. `folder` is the copy of the
# repository that was checked, `crate` the crate's folder there, from which places are told.

# names without their modules (`Rattle.flow.specs.Checked.answer_of` is `answer_of`); 420 bytes at most
function plain(text,    told, path) {
    while (match(text, /(^|[][ (){}`,;:\x27])(Rattle|Prim|lib|mathlib|native|mir|base|store|prog|types|contract|denote|borrow)\.[^][ (){}`,;:]+/)) {
        path = substr(text, RSTART, RLENGTH)
        told = told substr(text, 1, RSTART - 1)
        text = substr(text, RSTART + RLENGTH)
        if (path !~ /^[A-Za-z]/) { told = told substr(path, 1, 1); path = substr(path, 2) }
        while (match(path, /^[^.]+\.[^.]/)) path = substr(path, RLENGTH)
        told = told path
    }
    text = told text
    if (length(text) <= 420) return text
    text = substr(text, 1, 420)
    sub(/[\300-\377][\200-\277]*$/, "", text)
    return text " .."
}
# a place from the repository's folder
function place_in(place) {
    sub(/^\.\//, "", place)
    return crate "/" place
}
function source_line(place,    part, i, line) {
    split(place, part, ":")
    for (i = 1; i <= part[2]; i++) getline line < (folder "/" part[1])
    close(folder "/" part[1])
    sub(/^ +/, "", line)
    return line
}
# a function by its path, as `outcomes::rooms::outcome`: its place, signature and contract
function tell(path,    n, part, i, file, line, number, found) {
    n = split(path, part, "::")
    file = "crates/" part[1] "/src"
    for (i = 2; i < n; i++) file = file "/" part[i]
    if (n == 2) file = file (part[2] == "main" ? "/main" : "/lib")
    while ((getline line < (folder "/" file ".rt")) > 0) {
        number++
        if (!found && line ~ ("^ *(pub )?(unsafe )?(extern \"C\" )?fn " part[n] "[(<]")) { found = 1; print "  not proved: " file ".rt:" number }
        if (!found) continue
        if (line ~ /^ *\{$/) break
        print "      " line
        if (line ~ /\{$/) break
    }
    close(folder "/" file ".rt")
}
function count(n, one, more) { return n == 1 ? "1 " one : n " " more }

!/^  / { showing = 0 }
# what rests on a law that failed was not checked
match($0, /: error: [0-9]+ declarations? that depends? on /) && / (was|were) not checked/ { laws += substr($0, RSTART + 9) + 0; next }
/: error: this file exports no / { next }
(at = index($0, ": error: ")) {
    if (++errors > 3) next
    place = place_in(substr($0, 1, at - 1))
    if (errors == 1) first = place
    print "  " place
    print "      " plain(source_line(place))
    print "    " plain(substr($0, at + 9))
    showing = 1
}
# what is expected and what was found, and not the advice that follows
showing && /^  ≟/ && before != "" { print "    " plain(substr(before, 3)) }
showing && /^  (computed|expected|but this|\(expected|\(found|and the other|≟|does not hold|`(simp|rw)` has|`cc`: |is none)/ {
    sub(/ \(this comparison, made at.*/, "")
    sub(/, by congruence, computation .*/, "")
    print "    " plain(substr($0, 3))
}
# the left side of `≟` stands in the line before it
showing { before = /^  `/ ? $0 : "" }

# of a function whose goals were left to search: the fact in words, and the goal
/^note: .*: it is not proved that / && ++notes <= 3 { print "  " place_in(plain(substr($0, 7))) }
/^note: .* of proofs\/.* must prove: / && ++goals <= 3 { print "    " plain(substr($0, 7)) }

/^fn .*: (not proved|no proof)/ {
    unproved++
    path = substr($2, 1, length($2) - 1)
    name = path
    sub(/.*::/, "", name)
    # the one that has no proof or in whose proof the first law stands, else the first
    if (/: no proof/ || first ~ ("[/+]" name "[/+]")) { if (!own++) shown = path }
    else if (shown == "") shown = path
}
END {
    if (first ~ /\/specs\//) print "  in the definitions themselves: no fact is shown to fail"
    if (errors > 3) print "  and " count(errors - 3, "place", "places") " more"
    if (unproved) tell(shown)
    if (unproved > 1) print "  not proved with it: " count(unproved - 1, "function", "functions")
    if (laws) print "  resting on these: " count(laws, "law", "laws")
}
