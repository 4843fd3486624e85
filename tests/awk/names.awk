# Every name that antt or code declares: the name, the file and the line, with tabs between.
FILENAME ~ /\.antt$/ && (name = declared($0)) != "" { print name "\t" FILENAME "\t" FNR }
FILENAME ~ /\.rt$/ && !/^ *\/\// && match($0, /(fn|struct|enum|mod) [a-zA-Z_0-9]+/) {
    split(substr($0, RSTART, RLENGTH), word, " ")
    print word[2] "\t" FILENAME "\t" FNR
}
