# The lines of each file: of definitions (neither comment, import nor empty), and of comments; with totals.
function finish() {
    if (file == "") return
    printf "   %-44s %11d %8d\n", file, definitions, comments
    files++
    all_definitions += definitions
    all_comments += comments
}
BEGIN { printf "   %-44s %11s %8s\n", "", "definitions", "comments" }
FNR == 1 { finish(); file = FILENAME; definitions = comments = 0 }
/^ *--/ { comments++; next }
/^(use |$)/ { next }
{ definitions++ }
END { finish(); printf "   %-44s %11d %8d\n", files " files", all_definitions, all_comments }
