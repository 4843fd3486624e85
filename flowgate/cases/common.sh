# What the cases share: files made from words, and a program's output and exit status compared with those expected.

version=$(sed -n 's/^#define FLOWCHECK_VERSION_[A-Z]* \([0-9]*\)$/\1/p' "$root/include/flowcheck.h" | paste -s -d . -)

# the three ways to run a program
plain() {
    "$bin/$program" "$@"
}
sanitized() {
    "$bin/$program-sanitized" "$@"
}
in_valgrind() {
    valgrind -q --error-exitcode=99 --leak-check=full --show-leak-kinds=all --errors-for-leak-kinds=all "$bin/$program" "$@"
}

# root reads every file, and so runs a program as nobody
as_nobody() {
    setpriv --reuid=65534 --regid=65534 --clear-groups "$bin/$program" "$@"
}

# words K:P...: these words as bytes, low byte first
words() {
    for word in "$@"; do
        value=$((${word%:*} * 67108864 + ${word#*:}))
        printf "$(printf '\\%03o\\%03o\\%03o\\%03o' $((value & 255)) $((value >> 8 & 255)) $((value >> 16 & 255)) $((value >> 24)))"
    done
}

# bytes: the hexadecimal digits of standard input as bytes
bytes() {
    printf "$(awk 'function digit(i) { return index("0123456789abcdef", substr($0, i, 1)) - 1 }
        { for (i = 1; i < length($0); i += 2) printf "\\%03o", 16 * digit(i) + digit(i + 1) }')"
}

# row NAME: the file of that row of tests/rows.tsv
row() {
    awk -F '\t' -v name="$1" '$1 == name { print $3 }' "$rows" | bytes
}

# tried COUNT: so many cases were tried. It and `wrong` keep their counts in files, since a function behind a pipe has variables of its
# own.
tried() {
    echo "$1" >> "$work/tried"
}

# wrong TEXT: a case that failed
wrong() {
    printf 'flowgate/test: wrong for %s\n' "$*" | tee -a "$work/wrong"
}

# expect STATUS WORD...: the program's exit status for these words is STATUS; what it writes is file `out`, and `err` on standard error.
# Its standard input is the file named by `input`, or else empty.
input=/dev/null
expect() {
    status=$1
    shift
    $run "$@" < "$input" > got 2> got-err
    got=$?
    tried 1
    if [ "$got" -eq "$status" ] && cmp -s out got && cmp -s err got-err; then
        return
    fi
    wrong "$run $program $*: exit status $got, expected $status"
    diff out got
    diff err got-err
}

# lines STATUS WORD...: the same, the lines expected being those of standard input, and none on standard error
lines() {
    cat > out
    : > err
    expect "$@"
}

# errors STATUS WORD...: the same, on standard error
errors() {
    cat > err
    : > out
    expect "$@"
}

# silent STATUS WORD...: nothing is written
silent() {
    : > out
    : > err
    expect "$@"
}

# misuse WORD... : exit status 2, with the line of standard input and the program's usage on standard error
misuse() {
    { cat; "$bin/$program" 2>&1; } > err
    : > out
    expect 2 "$@"
}

# full_device WORD...: what can't be written is told, with exit status 2
full_device() {
    $run "$@" > /dev/full 2> got-err
    got=$?
    tried 1
    echo "$program: standard output can't be written" > err
    if [ $got -ne 2 ] || ! cmp -s err got-err; then
        wrong "$run $program $*, to a full device: exit status $got"
        diff err got-err
    fi
}

make_files() {
    words 63:5 24:0 32:0 32:0 33:1 > good
    words 63:10 27:0 2:1 32:1 9:1 2:1 32:1 9:1 2:0 33:3 > copy
    words 63:6 27:0 2:1 32:0 32:0 33:10 > leak
    : > empty
    head -c 3 good > three
    head -c 22 /dev/zero > odd
    head -c 32768 /dev/zero > most
    head -c 32772 /dev/zero > long
    words 63:4 24:0 32:0 32:0 33:1 > count
    words 63:4 24:0 32:0 32:0 > short
    row limits/l3592-depth > deep
    words 63:5 24:0 32:65 32:0 33:1 > members
    words 63:5 24:0 32:0 32:0 34:13 > kind
    words 63:6 24:0 32:0 32:0 33:1 24:0 > rest
    words 63:6 31:33 24:0 32:0 32:0 33:10 > loop
    words 63:10 27:0 2:1 32:1 9:1 2:2 32:1 9:1 2:0 33:3 > rule
    row limits/l3830-s14 > large
    words 63:19 62:1 27:0 2:1 32:1 9:1 2:1 32:1 9:1 2:0 33:3 38:0 32:1 9:1 2:1 32:1 9:1 2:0 33:31 > called
    words 63:10 62:1 38:0 32:0 32:0 33:10 24:0 32:0 32:0 33:10 > itself
    words 63:5 38:3 32:0 32:0 33:10 > nowhere
    mkdir folder
    ln -s circle circle
    cp good "$(printf 'two\nlines')"
    cp good -- -good
    cp good closed
    chmod 000 closed
    chmod 755 .
}
