# examples/workbench: its sessions, bad lines, and what can't be read or written; and masks.c and limits.c under valgrind.

# session NAME: the lines of a session with the certificate of that name, and what they give
session() {
    input=$root/examples/workbench/$1.session
    rm -f crossed.cert
    lines 0 "$root/examples/$1.cert" < "$root/examples/workbench/$1.expected"
    input=/dev/null
}

sessions() {
    for name in guard-procedure lookup wage guard-output-0; do
        session $name
    done
    tried 1
    cmp crossed.cert "$root/examples/guard-crossed.cert" || wrong "$run $program: what it wrote"
    rm crossed.cert
}

# the session that examples/README.md shows: behind `>` the lines, then what they give, where `..` is a cut
shown_session() {
    sed -n '/^    target\/c\/bin\/workbench /,/^Word 12 /s/^    //p' "$root/examples/README.md" > shown
    sed -n 's/^> //p' shown > typed
    grep -v -e '^>' -e '^\.\.$' -e '^target' shown > due
    "$bin/workbench" "$root/examples/guard-output-0.cert" < typed > got
    tried 1
    awk 'NR == FNR { due[++n] = $0; next } $0 == due[at + 1] { at++ } END { exit !(n > 9 && at == n) }' due got ||
        wrong "examples/README.md: the session of the workbench"
}

# given LINE...: these are the lines of standard input
given() {
    printf '%s\n' "$@" > typed
    input=typed
}

# files without a command that can be put, refused files, and lines that say nothing
bench_answers() {
    given '' '  # a comment' 'show # all' '	check	' "$(printf 'show\r')"
    lines 0 good << 'END'
accepted 1
1 24:0  nothing
accepted 1
1 24:0  nothing
END
    given show 'put 1 24:0' check
    lines 0 short << 'END'
refused 3 4: the file ends where a word is due
refused 3 4: the file ends where a word is due
refused 3 4: the file ends where a word is due
refused 3 4: the file ends where a word is due
END
    given show 'show 1' 'put 1 28:0 17:0' check
    lines 0 rule << 'END'
refused 8 9: a rule's condition fails
1 27:0  x0
put 1 27:0 2:1
put
1 28:0  a0 (before: x0)
refused 8 9: a rule's condition fails
END
    given 'put 1' 'put 8191 24:0' 'put 0 24:0' 'put 01 24:000'
    refused='refused 18 0: the place or the new command is no skip, assert or assignment of equal length, or the changed file would not be read'
    printf 'accepted 1\n%s\n%s\n%s\nput\n' "$refused" "$refused" "$refused" | lines 0 good
    : > typed
    echo 'accepted 1' | lines 0 good
}

# bad LINE WORD TEXT: this line of standard input is bad, and what is told of it
bad() {
    echo "$1" >> typed
    echo "workbench: line $(wc -l < typed): $2: $3" >> err
}

# each bad line is told by its number, and those behind it are carried out
bad_lines() {
    : > err
    given '# no line'
    for line in shw Show show# put1; do
        bad "$line" "$line" 'no such line; `help` lists them'
    done
    bad "$(printf 'sh\033ow')" 'sh?ow' 'no such line; `help` lists them'
    for place in x 8192 -1 24:0 1x 99999999999999999999; do
        bad "show $place" "$place" 'no place of a word'
        bad "put $place 24:0" "$place" 'no place of a word'
    done
    for place in 0 2 7 8191; do
        bad "show $place" "$place" 'no skip, assert or assignment starts there'
    done
    for word in 24 24: :0 64:0 24:67108864 24:-1 24:0x 24:0:0 +24:0; do
        bad "put 1 24:0 $word" "$word" 'no word KIND:PAYLOAD, from 0:0 to 63:67108863'
    done
    for line in put write; do
        bad "$line # nothing" "$line" 'words are missing'
    done
    for line in 'show 1 2' 'check it' 'write a b' 'help me' 'quit it'; do
        bad "$line" "${line%% *}" 'too many words'
    done
    echo check >> typed
    printf 'accepted 1\naccepted 1\n' > out
    expect 1 good
    printf 'check\0now\ncheck\n' > typed
    echo 'workbench: line 1: the line: it has a byte 0' > err
    expect 1 good
}

# the longest line that is read as a command, and one word more
long_lines() {
    { printf 'put 1'; awk 'BEGIN { for (i = 0; i < 8191; i++) printf " 24:0" }'; echo; } > typed
    printf 'accepted 1\n%s\n' "$refused" | lines 0 good
    sed -i 's/$/ 24:0/' typed
    echo 'accepted 1' > out
    echo 'workbench: line 1: put: too many words' > err
    expect 1 good
}

# no file is written over but the one written last
bench_writes() {
    rm -rf made
    given 'write made' 'put 1 28:9 17:0' 'write made' 'write good' 'write folder/made' 'write missing/made' 'write made' 'write folder'
    printf 'accepted 1\nwritten, 40 bytes\nput\n1 28:9  a9 (before: x0)\nwritten, 40 bytes\nwritten, 40 bytes\n' > out
    sed 's/^/workbench: line /' > err << 'END'
4: good: File exists
6: missing/made: No such file or directory
7: made: File exists
8: folder: File exists
END
    expect 1 copy
    words 63:10 28:9 17:0 32:1 9:1 2:1 32:1 9:1 2:0 33:3 > due
    tried 2
    cmp due made || wrong "$run $program: the file written"
    cmp due folder/made || wrong "$run $program: the second file written"
    rm made folder/made
}

# where files can't grow
bench_unwritten() {
    given 'write made'
    (trap '' XFSZ && ulimit -f 0 && $run copy < typed) 2>&1 | cat > got
    printf 'accepted 1\nworkbench: line 1: made: it can'"'"'t be written\n' > due
    tried 1
    diff due got || wrong "$run $program, where files can't grow"
    rm -f made
}

bench_faults() {
    echo 'workbench: usage: workbench CERTIFICATE' | errors 2
    echo 'workbench: usage: workbench CERTIFICATE' | errors 2 good copy
    echo 'workbench: missing: No such file or directory' | errors 2 missing
    echo 'workbench: folder: Is a directory' | errors 2 folder
    echo 'workbench: long: File too large' | errors 2 long
    echo 'workbench: two?lines/none: Not a directory' | errors 2 "$(printf 'two\nlines/none')"
    input=folder
    echo 'accepted 1' > out
    echo "workbench: standard input: it can't be read" > err
    expect 2 good
    input=/dev/null
    $run good < /dev/null > /dev/full 2> got-err
    got=$?
    tried 1
    if [ $got -ne 2 ] || [ "$(cat got-err)" != "workbench: standard output: it can't be written" ]; then
        wrong "$run $program, to a full device: exit status $got"
    fi
}

workbench_cases() {
    program=workbench
    sessions
    bench_answers
    bad_lines
    long_lines
    bench_writes
    [ $run = in_valgrind ] || bench_unwritten
    input=/dev/null
    bench_faults
    if [ $run = plain ]; then
        program=workbench-c++
        sessions
    elif [ $run = in_valgrind ]; then
        for program in masks-plain limits-plain; do
            silent 0
        done
    fi
}

# the example's own Makefile, with what is installed
workbench_build() {
    tried 2
    make -s -C "$root/examples/workbench" "PREFIX=$prefix" "PROGRAM=$work/bench" > said 2>&1 || wrong "examples/workbench: its Makefile"
    [ ! -s said ] || wrong "examples/workbench: $(cat said)"
    shown_session
    ./bench "$root/examples/lookup.cert" < "$root/examples/workbench/lookup.session" > got
    cmp got "$root/examples/workbench/lookup.expected" || wrong "examples/workbench, as its Makefile builds it"
}
