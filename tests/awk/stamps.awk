# For each crate the text whose sum `prove` keeps in target/stamp once the crate is proved: the toolchain and machine (`toolchain`), the
# sums of the crate's files, its line of crates.txt and the stamps of what it uses; into a file of the crate's name in `folder`, of the
# crate `only` if that is given. Files: the sorted sums of all crates' files, then crates.txt.
FILENAME != "crates.txt" {
    crate = $2
    sub(/^crates\//, "", crate)
    sub(/\/.*/, "", crate)
    sub("  crates/" crate "/", "  ")
    sums[crate] = sums[crate] $0 "\n"
    next
}
{ sub(/#.*/, "") }
(colon = index($0, ":")) {
    kind = substr($0, 1, colon - 1)
    crate = kind
    sub(/^[ \t]+/, "", crate)
    sub(/[ \t].*/, "", crate)
    if (only != "" && crate != only) next
    rest = substr($0, colon + 1)
    text = toolchain "\n" sums[crate] "kind: " kind "\ndeps: " rest "\n"
    n = split(rest, dep, " ")
    for (i = 1; i <= n; i++) {
        if (!(dep[i] in sums)) text = text "kit " dep[i] "\n"
        else if ((getline line < ("target/stamp/" dep[i])) > 0) text = text line "\n"
        else text = text "unproved " dep[i] "\n"
        close("target/stamp/" dep[i])
    }
    printf "%s", text > (folder "/" crate)
}
