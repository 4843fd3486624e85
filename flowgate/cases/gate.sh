# flowgate on files alone: the lines of accepted and refused certificates, and what can't be read or written.

# accepted files, and the limits of a file's size
sizes() {
    lines 0 good << 'END'
good: accepted 1
END
    lines 0 good copy << 'END'
good: accepted 1
copy: accepted 1
END
    lines 0 "$(printf 'two\nlines')" << 'END'
two?lines: accepted 1
END
    lines 1 empty three odd long << 'END'
empty:0: refused 1: the byte count is 0, over 32,768 or no multiple of 4; 0 bytes; at word 0: [no word, the file ends]
three:0: refused 1: the byte count is 0, over 32,768 or no multiple of 4; 3 bytes; at word 0: [no word, the file ends]
odd:0: refused 1: the byte count is 0, over 32,768 or no multiple of 4; 22 bytes; at word 0: [0:0] 0:0 0:0
long:0: refused 1: the byte count is 0, over 32,768 or no multiple of 4; over 32768 bytes; at word 0: [0:0] 0:0 0:0
END
    lines 1 most << 'END'
most:0: refused 2: word 0 is not 63:n, n the words in the file; at word 0: [0:0] 0:0 0:0
END
}

# refusals 2 to 9 and 16, two among accepted files
refusals() {
    lines 1 count << 'END'
count:0: refused 2: word 0 is not 63:n, n the words in the file; at word 0: [63:4] 24:0 32:0
END
    lines 1 short << 'END'
short:4: refused 3: the file ends where a word is due; at word 4: 32:0 32:0 [no word, the file ends]
END
    lines 1 deep << 'END'
deep:129: refused 4: a word is deeper than the settings allow; depth 128; at word 129: 12:0 12:0 [9:7]
END
    lines 1 members kind << 'END'
members:2: refused 5: a word's kind or payload isn't allowed there; members 64; at word 2: 63:5 24:0 [32:65] 32:0 33:1
kind:4: refused 5: a word's kind or payload isn't allowed there; at word 4: 32:0 32:0 [34:13]
END
    lines 1 rest << 'END'
rest:5: refused 6: words follow the evidence; at word 5: 32:0 33:1 [24:0]
END
    lines 1 loop << 'END'
loop:1: refused 7: a for has q = m or a body that modifies q or m; at word 1: 63:6 [31:33] 24:0 32:0
END
    lines 1 itself nowhere called << 'END'
itself:2: refused 16: a call's number is not below its own procedure's, or not in the table; at word 2: 63:10 62:1 [38:0] 32:0 32:0
nowhere:1: refused 16: a call's number is not below its own procedure's, or not in the table; at word 1: 63:5 [38:3] 32:0 32:0
called: accepted 2
END
    lines 1 large << 'END'
large:94: refused 9: a rule's condition is an implication over more comparisons than the settings allow; comparisons 10; at word 94: 1:10 2:1 [34:14] 33:1
END
    lines 1 good rule copy << 'END'
good: accepted 1
rule:9: refused 8: a rule's condition fails; at word 9: 9:1 2:0 [33:3]
copy: accepted 1
END
}

# what can't be read or written; with other files, those are checked all the same
faults() {
    errors 2 << 'END'
usage: flowgate [OPTION]... FILE...
END
    errors 2 missing << 'END'
flowgate: missing: No such file or directory
END
    errors 2 folder << 'END'
flowgate: folder: Is a directory
END
    errors 2 circle good/none "$(printf 'a\tb')" '' << 'END'
flowgate: circle: Too many levels of symbolic links
flowgate: good/none: Not a directory
flowgate: a?b: No such file or directory
flowgate: : No such file or directory
END
    printf 'good: accepted 1\nrule:9: refused 8: a rule'"'"'s condition fails; at word 9: 9:1 2:0 [33:3]\ncopy: accepted 1\n' > out
    echo 'flowgate: missing: No such file or directory' > err
    expect 2 good missing rule copy
    full_device good
    full_device rule
}

closed_file() {
    program=flowgate
    run=plain
    [ ! -r closed ] || run=as_nobody
    if ! $run --version > /dev/null 2>&1; then
        echo "flowgate/test: skipped: a file without permission (this user reads every file, and can't be nobody)"
        return
    fi
    errors 2 closed << 'END'
flowgate: closed: Permission denied
END
    errors 2 --program closed good << 'END'
flowgate: closed: Permission denied
END
}

gate_cases() {
    program=flowgate
    sizes
    refusals
    faults
}

# lines_of_check: flowgate's lines as `FILE: ` and what ./check writes
lines_of_check() {
    sed 's/^\([^:]*\):\([0-9]*\): refused \([0-9]*\):.*/\1: refused \3 \2/'
}

# the rows of tests/rows.tsv, all at once
all_rows() {
    program=flowgate
    mkdir rows
    # a file without bytes is an empty field, which `read` keeps between bars and not between tabs
    grep -v '^#' "$rows" | tr '\t' '|' > table
    number=1000
    while IFS='|' read -r name line hex note; do
        number=$((number + 1))
        printf '%s\n' "$hex" | bytes > "rows/$number"
        printf 'rows/%s: %s\n' "$number" "$line"
    done < table > due
    $run rows/* | lines_of_check > got
    count=$(wc -l < due)
    tried "$count"
    if [ "$count" -lt 3514 ] || ! diff due got; then
        wrong "the rows of tests/rows.tsv"
    fi
}

# format_call CALL FILE: a line of docs/FORMAT.md with masks, `masks WORDS gives ANSWER` or `put WORDS at PLACE WORDS gives ANSWER`, where
# the answer has the masks, in hexadecimal
format_call() {
    asked=${2%% gives *}
    words ${asked%% at *} > file
    set -- "$1" "$2" file
    case $1$asked in
        put*" at "*)
            asked=${asked##* at }
            words ${asked#* } > command
            set -- "$1" "$2" file "${asked%% *}" command
            ;;
        put* | *" at "*) wrong "docs/FORMAT.md: $1 $2" ;;
    esac
    echo "${2##* gives }" | sed 's/ *$//' > due
    shift 2
    "$bin/numbers" "$@" | diff due - || wrong "docs/FORMAT.md: $file"
    calls=$((calls + 1))
}

# the files written out in docs/FORMAT.md: by words up to `gives`, and the one in hexadecimal, which is that of rule 3
format_files() {
    program=flowgate
    grep '^    0a0000fc ' "$format" | tr -d ' ' | bytes > hex
    cmp hex copy || wrong "docs/FORMAT.md: the file in hexadecimal"
    awk '/^```/ { block = !block; next } block { sub(/ *#.*/, ""); printf "%s ", $0 } block && / gives / { print "" }' "$format" > table
    count=0
    calls=0
    while read -r rule file; do
        case $rule in
            masks | put)
                format_call "$rule" "$file"
                continue
                ;;
        esac
        words ${file%% gives *} > file
        case $rule in
            *:*) has=" $rule " ;;
            *) has=" gives refused $rule " ;;
        esac
        case " $file " in
            *"$has"*) ;;
            *) wrong "docs/FORMAT.md: no file for $rule: $file" ;;
        esac
        echo "file: ${file##* gives }" | sed 's/ *$//' > due
        $run file | lines_of_check > got
        diff due got || wrong "docs/FORMAT.md: $file"
        count=$((count + 1))
    done < table
    tried $((count + calls))
    if [ "$count" -lt 64 ] || [ "$calls" -lt 10 ]; then
        wrong "docs/FORMAT.md: it has $count files and $calls calls"
    fi
}
