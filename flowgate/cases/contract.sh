# What was ordered: --program, --precondition, --postcondition, --contract, and --parts, which writes such files.

# the parts of `copy`, and of the program that copies scalar 1 into scalar 0 under an empty contract
ordered_files() {
    mkdir -p ordered
    words 27:0 2:1 > ordered/program
    words 32:1 9:1 2:1 > ordered/precondition
    words 32:1 9:1 2:0 > ordered/postcondition
    words 32:0 > none
}

as_ordered() {
    lines 0 --program ordered/program copy leak << 'END'
copy: accepted 1
leak: accepted 1
END
    lines 0 --precondition none --postcondition=none leak good << 'END'
leak: accepted 1
good: accepted 1
END
    lines 0 --contract ordered copy << 'END'
copy: accepted 1
END
    lines 0 --contract=ordered/ copy << 'END'
copy: accepted 1
END
    input=ordered/program
    lines 0 --program - copy << 'END'
copy: accepted 1
END
    input=copy
    lines 0 --contract ordered - << 'END'
-: accepted 1
END
    input=/dev/null
}

# each part by itself; the first part that differs is named, at the first word that does
not_as_ordered() {
    lines 1 --contract ordered leak copy << 'END'
leak:3: differs: word 0 of the precondition is 32:0, ordered is 32:1
copy: accepted 1
END
    lines 1 --precondition ordered/precondition leak << 'END'
leak:3: differs: word 0 of the precondition is 32:0, ordered is 32:1
END
    lines 1 --postcondition ordered/postcondition leak << 'END'
leak:4: differs: word 0 of the postcondition is 32:0, ordered is 32:1
END
    lines 1 --program ordered/program good << 'END'
good:1: differs: word 0 of the program is 24:0, ordered is 27:0
END
    words 27:0 2:2 > other
    lines 1 --program other copy << 'END'
copy:2: differs: word 1 of the program is 2:1, ordered is 2:2
END
    words 32:1 9:1 2:2 > other
    lines 1 --precondition other --postcondition empty copy << 'END'
copy:5: differs: word 2 of the precondition is 2:1, ordered is 2:2
END
    lines 1 --contract ordered rule << 'END'
rule:9: refused 8: a rule's condition fails; at word 9: 9:1 2:0 [33:3]
END
}

# orders that are cut, too long or no words: no byte more or less passes
other_lengths() {
    lines 1 --program empty copy << 'END'
copy:1: differs: word 0 of the program is 27:0, ordered is no word
END
    head -c 4 ordered/program > other
    lines 1 --program other copy << 'END'
copy:2: differs: word 1 of the program is 2:1, ordered is no word
END
    head -c 7 ordered/program > other
    lines 1 --program other copy << 'END'
copy:2: differs: word 1 of the program is 2:1, ordered is no whole word
END
    { cat ordered/program; printf '\001'; } > other
    lines 1 --program other copy << 'END'
copy:3: differs: word 2 of the program is no word, ordered is no whole word
END
    words 27:0 2:1 32:1 > other
    lines 1 --program other copy << 'END'
copy:3: differs: word 2 of the program is no word, ordered is 32:1
END
    lines 1 --program long copy << 'END'
copy:1: differs: word 0 of the program is 27:0, ordered is 0:0
END
    lines 1 --program copy copy << 'END'
copy:1: differs: word 0 of the program is 27:0, ordered is 63:10
END
}

# each byte of each part counts
every_byte() {
    for part in program precondition postcondition; do
        size=$(wc -c < ordered/$part)
        at=0
        while [ $at -lt "$size" ]; do
            { head -c $at ordered/$part; tail -c +$((at + 1)) ordered/$part | head -c 1 | tr '\000-\377' '\200-\377\000-\177'
                tail -c +$((at + 2)) ordered/$part; } > other
            $run --$part other copy > got
            got=$?
            tried 1
            if [ $got -ne 1 ] || ! grep -q "^copy:[0-9]*: differs: word $((at / 4)) of the $part " got; then
                wrong "$run flowgate --$part, byte $at changed"
            fi
            at=$((at + 1))
        done
    done
}

# the program of a certificate with procedures is 62:k, their bodies, the main command: another body is another program, and evidence and
# the procedures' own contracts are none of it
with_procedures() {
    words 62:1 27:0 2:1 38:0 > bodies
    echo 'called: accepted 2' | lines 0 --program bodies called
    words 38:0 > other
    lines 1 --program other called << 'END'
called:1: differs: word 0 of the program is 62:1, ordered is 38:0
END
    words 62:1 27:0 2:2 38:0 > other
    lines 1 --program other called << 'END'
called:3: differs: word 2 of the program is 2:1, ordered is 2:2
END
    words 62:1 27:0 2:1 24:0 > other
    lines 1 --program other called << 'END'
called:11: differs: word 3 of the program is 38:0, ordered is 24:0
END
    words 62:1 27:0 2:1 > other
    lines 1 --program other called << 'END'
called:11: differs: word 3 of the program is 38:0, ordered is no word
END
    words 62:1 27:0 2:1 38:0 24:0 > other
    lines 1 --program other called << 'END'
called:12: differs: word 4 of the program is no word, ordered is 24:0
END
    lines 1 --json --program other called << 'END'
{"file":"called","verdict":"differs","number":null,"place":12,"count":2,"meaning":"the program is not as ordered","part":"program","word":4,"is":null,"ordered":"24:0"}
END
    lines 1 --program bodies copy << 'END'
copy:1: differs: word 0 of the program is 27:0, ordered is 62:1
END
    lines 1 --contract ordered called << 'END'
called:1: differs: word 0 of the program is 62:1, ordered is 27:0
END
    words 63:11 62:1 27:0 2:1 32:0 32:0 33:10 38:0 32:0 32:0 33:31 > again
    echo 'again: accepted 2' | lines 0 --program bodies again
    rm -rf kept
    mkdir kept
    echo 'called: accepted 2' | lines 0 --parts kept called
    tried 1
    cmp bodies kept/program || wrong "flowgate --parts: the program of a certificate with procedures"
    echo 'called: accepted 2' | lines 0 --contract kept called
    rm -r kept
}

no_orders() {
    errors 2 --program missing copy << 'END'
flowgate: missing: No such file or directory
END
    errors 2 --contract missing copy << 'END'
flowgate: missing/program: No such file or directory
END
    mkdir -p partly
    cp ordered/program ordered/precondition partly
    errors 2 --contract partly copy << 'END'
flowgate: partly/postcondition: No such file or directory
END
    errors 2 --program folder copy << 'END'
flowgate: folder: Is a directory
END
    long_name=$(printf '%4096s' '' | tr ' ' d)
    printf 'flowgate: %.4095s: File name too long\n' "$long_name" | errors 2 --contract "$long_name" copy
}

# what --parts writes is what --contract takes; nothing is written over, and nothing of a refused or differing certificate
parts_written() {
    rm -rf made
    mkdir made
    echo 'copy: accepted 1' | lines 0 --parts made copy
    tried 1
    diff -r ordered made || wrong "flowgate --parts"
    echo 'copy: accepted 1' | lines 0 --contract made copy
    echo 'copy: accepted 1' > out
    echo 'flowgate: made/program: File exists' > err
    expect 2 --parts made copy
    rm made/program made/precondition
    echo 'flowgate: made/postcondition: File exists' > err
    expect 2 --parts made copy
    tried 1
    [ "$(ls made)" = postcondition ] || wrong "flowgate --parts, one file being there: $(ls made)"
    echo 'flowgate: missing/program: No such file or directory' > err
    expect 2 --parts missing copy
    rm made/postcondition
    echo "rule:9: refused 8: a rule's condition fails; at word 9: 9:1 2:0 [33:3]" | lines 1 --parts made rule
    echo 'leak:3: differs: word 0 of the precondition is 32:0, ordered is 32:1' | lines 1 --contract ordered --parts made leak
    errors 2 --parts made missing << 'END'
flowgate: missing: No such file or directory
END
    tried 1
    [ -z "$(ls made)" ] || wrong "flowgate --parts: it wrote parts of a file that is not accepted: $(ls made)"
    silent 0 --quiet --parts made copy
}

# files that can't grow: a write that fails is told by the exit status
parts_unwritten() {
    rm made/*
    (trap '' XFSZ && ulimit -f 0 && $run --quiet --parts made copy)
    got=$?
    tried 1
    [ $got -eq 2 ] || wrong "$run flowgate --parts, where files can't grow: exit status $got"
}

contract_cases() {
    program=flowgate
    ordered_files
    as_ordered
    not_as_ordered
    other_lengths
    with_procedures
    [ $run != plain ] || every_byte
    no_orders
    parts_written
    [ $run = in_valgrind ] || parts_unwritten
}
