# What trusted files use: the file, the module and the name, with tabs between; names of the prelude `Prim` need no import. From the
# repository a trusted file imports definitions and the code's types alone, and of a working file only if its header names a law:
# such files go to `working_table`. `headers_table` is the table of headers.
BEGIN {
    FS = "\t"
    while ((getline < headers_table) > 0) { kind[$1] = $2; laws[$1] = $3 }
    FS = " "
    count = split("⊥ absurd Dec yes no Discrete Id IsProp IsSet J Path Unit tt", name, " ")
    for (i = 1; i <= count; i++) prelude[name[i]]
}
/^ *--/ { next }
(module = used_module($0)) == "" {
    gsub(/[(){},;]/, " ")
    for (i = 1; i <= NF; i++) if ($i in prelude) print FILENAME "\tPrim\t" $i
    next
}
{
    count = used_names($0, name)
    for (i = 1; i <= count; i++) { sub(/ as .*/, "", name[i]); print FILENAME "\t" module "\t" name[i] }
}
is_own(module) && module !~ /\.specs\.declared\./ {
    file = file_of(module)
    if (!(file in kind)) fault(FILENAME ":" FNR ": a trusted file imports " module ", which is no file of definitions")
    else if (kind[file] != "Working" || file in seen) next
    else if (laws[file] == "") fault(FILENAME ":" FNR ": a trusted file imports from " file ", whose header names no law")
    else { seen[file]; print "   " file "\n       by " laws[file] > working_table }
}
