# --comparisons, --depth and --members, of flowgate and flowrun: both ends of each range and just outside, files that are accepted only under
# raised settings, and where settings are told.

# repeated COUNT WORD...: these words so many times
repeated() {
    count=$1
    shift
    while [ "$count" -gt 0 ]; do
        printf ' %s' "$@"
        count=$((count - 1))
    done
}

# conjunction COUNT: a set of one member for x9, under so many comparisons of x0
conjunction() {
    printf ' 32:1'
    at=0
    while [ $at -lt "$1" ]; do
        [ $((at + 1)) -eq "$1" ] || printf ' 10:0'
        printf ' 8:1 2:0 1:%d' $at
        at=$((at + 1))
    done
    printf ' 2:9'
}

# nest-N asserts a true test down to depth N; set-N has N members in each set; over-N has an implication over N comparisons (rule 7, set rule 18)
settings_files() {
    for depth in 129 256 257; do
        words 63:$((depth + 4)) 26:0 $(repeated $((depth - 2)) 12:0) 9:$((1 - depth % 2)) 32:0 32:0 33:10 > nest-$depth
    done
    for members in 65 128 129; do
        words 63:$((4 * members + 5)) 24:0 32:$members $(repeated $members 9:1 1:0) 32:$members $(repeated $members 9:1 1:0) 33:1 > set-$members
    done
    for comparisons in 11 16 17; do
        words 63:$((8 * comparisons + 12)) 24:0 $(conjunction 1) $(conjunction $comparisons) 33:7 $(conjunction $comparisons) \
            34:18 33:1 > over-$comparisons
    done
}

# a file without nesting, members and comparisons is accepted at the ends of every range
range_ends() {
    for ends in 0,1,0 0,128,64 16,128,64 10,1,64 10,256,64 10,128,0 10,128,128 16,256,128; do
        comparisons=${ends%%,*}
        members=${ends##*,}
        depth=${ends%,*}
        depth=${depth#*,}
        echo "good: accepted 1 under comparisons $comparisons, depth $depth, members $members" |
            lines 0 --comparisons "$comparisons" --depth "$depth" --members="$members" good
    done
    for standard in --comparisons=10 --depth=128 --members=64 '--comparisons 10 --depth 128 --members 64' '--depth 0000000000000000000000128'; do
        echo 'good: accepted 1' | lines 0 $standard good
    done
}

# each setting by itself, from the value that a file needs on, up to the most
raised_settings() {
    deeper='a word is deeper than the settings allow'
    not_allowed="a word's kind or payload isn't allowed there"
    over="a rule's condition is an implication over more comparisons than the settings allow"
    echo 'nest-129: accepted 1 under comparisons 10, depth 129, members 64' | lines 0 --depth 129 nest-129
    for option in '' '--depth=128' '--comparisons=16 --members=128'; do
        echo "nest-129:129: refused 4: $deeper; depth 128; at word 129: 12:0 12:0 [9:0] 32:0 32:0" | lines 1 $option nest-129
    done
    echo 'set-65: accepted 1 under comparisons 10, depth 128, members 65' | lines 0 --members 65 set-65
    for option in '' '--members=64' '--comparisons=16 --depth=256'; do
        echo "set-65:2: refused 5: $not_allowed; members 64; at word 2: 63:265 24:0 [32:65] 9:1 1:0" | lines 1 $option set-65
    done
    echo 'over-11: accepted 3 under comparisons 11, depth 128, members 64' | lines 0 --comparisons 11 over-11
    for option in '' '--comparisons=10' '--depth=256 --members=128'; do
        echo "over-11:98: refused 9: $over; comparisons 10; at word 98: 1:10 2:9 [34:18] 33:1" | lines 1 $option over-11
    done
    lines 1 --comparisons=16 --depth=256 --members=128 nest-256 nest-257 set-128 set-129 over-16 over-17 << END
nest-256: accepted 1 under comparisons 16, depth 256, members 128
nest-257:257: refused 4: $deeper; depth 256; at word 257: 12:0 12:0 [9:0] 32:0 32:0
set-128: accepted 1 under comparisons 16, depth 256, members 128
set-129:2: refused 5: $not_allowed; members 128; at word 2: 63:521 24:0 [32:129] 9:1 1:0
over-16: accepted 3 under comparisons 16, depth 256, members 128
over-17:146: refused 9: $over; comparisons 16; at word 146: 1:16 2:9 [34:18] 33:1
END
    lines 1 --comparisons 0 --members 0 rule copy good << END
rule:3: refused 5: $not_allowed; members 0; at word 3: 27:0 2:1 [32:1] 9:1 2:2
copy:3: refused 5: $not_allowed; members 0; at word 3: 27:0 2:1 [32:1] 9:1 2:1
good: accepted 1 under comparisons 0, depth 128, members 0
END
}

# a refusal that no setting changes is told as before: no members where a set stands and a command or evidence is due
other_refusals() {
    words 63:5 32:70 32:0 32:0 33:1 > misplaced
    words 63:5 24:0 32:0 32:0 32:70 > misplaced-late
    lines 1 misplaced misplaced-late members << END
misplaced:1: refused 5: $not_allowed; at word 1: 63:5 [32:70] 32:0 32:0
misplaced-late:4: refused 5: $not_allowed; at word 4: 32:0 32:0 [32:70]
members:2: refused 5: $not_allowed; members 64; at word 2: 63:5 24:0 [32:65] 32:0 33:1
END
    lines 1 --comparisons=16 --depth=256 --members=128 rule kind misplaced empty << 'END'
rule:9: refused 8: a rule's condition fails; at word 9: 9:1 2:0 [33:3]
kind:4: refused 5: a word's kind or payload isn't allowed there; at word 4: 32:0 32:0 [34:13]
misplaced:1: refused 5: a word's kind or payload isn't allowed there; at word 1: 63:5 [32:70] 32:0 32:0
empty:0: refused 1: the byte count is 0, over 32,768 or no multiple of 4; 0 bytes; at word 0: [no word, the file ends]
END
}

# every call that flowgate makes is given the settings: those for the parts too
parts_under_settings() {
    rm -rf kept
    mkdir kept
    echo 'set-65: accepted 1 under comparisons 10, depth 128, members 65' > out
    : > err
    expect 0 --members 65 --parts kept set-65
    expect 0 --members 65 --contract kept set-65
    tried 1
    words 32:65 $(repeated 65 9:1 1:0) | cmp - kept/precondition || wrong "flowgate --members 65 --parts: the precondition"
    echo "set-65:2: refused 5: $not_allowed; members 64; at word 2: 63:265 24:0 [32:65] 9:1 1:0" | lines 1 --contract kept set-65
    lines 1 --depth 129 --contract kept nest-129 << 'END'
nest-129:1: differs: word 0 of the program is 26:0, ordered is 24:0
END
    rm -r kept
    { echo 'nest-129: accepted 1 under comparisons 10, depth 129, members 64'
        printf 'program\n  assert(%s\n' "$(repeated 127 '¬(' | tr -d ' ')false$(repeated 128 ')' | tr -d ' ')"
        printf 'precondition\n  (empty)\npostcondition\n  (empty)\n'; } | lines 0 --depth 129 --show nest-129
}

settings_json() {
    lines 1 --json --depth 129 nest-129 nest-256 rule << 'END'
{"file":"nest-129","verdict":"accepted","number":null,"place":null,"count":1,"meaning":null,"settings":{"comparisons":10,"depth":129,"members":64}}
{"file":"nest-256","verdict":"refused","number":4,"place":130,"count":null,"meaning":"a word is deeper than the settings allow","settings":{"comparisons":10,"depth":129,"members":64}}
{"file":"rule","verdict":"refused","number":8,"place":9,"count":null,"meaning":"a rule's condition fails","settings":{"comparisons":10,"depth":129,"members":64}}
END
    lines 1 --json --comparisons=16 --program empty leak << 'END'
{"file":"leak","verdict":"differs","number":null,"place":1,"count":1,"meaning":"the program is not as ordered","part":"program","word":0,"is":"27:0","ordered":null,"settings":{"comparisons":16,"depth":128,"members":64}}
END
    lines 2 --json --members=0 missing << 'END'
{"file":"missing","verdict":"unreadable","number":null,"place":null,"count":null,"meaning":"No such file or directory","settings":{"comparisons":10,"depth":128,"members":0}}
END
    lines 0 --json --depth 128 good << 'END'
{"file":"good","verdict":"accepted","number":null,"place":null,"count":1,"meaning":null}
END
}

# settings_misuse WORD...: bad values of each option, with these words behind; no file is read before they are told
settings_misuse() {
    for text in 'comparisons from 0 to 16' 'depth from 1 to 256' 'members from 0 to 128'; do
        option=--${text%% *}
        least=${text#* from }
        least=${least% to *}
        most=${text##* }
        said="$option is a whole number ${text#* }"
        for value in $((most + 1)) $((least - 1)) 18446744073709551616 x 1x '' ' 1' +1 1.5 0x10 10,128,64; do
            echo "$program: $value: $said" | misuse $option "$value" "$@"
        done
        printf '%s: ?: %s\n' $program "$said" | misuse "$option=$(printf '\t')" "$@"
        echo "$program: $option: its value is missing" | misuse "$@" $option
        echo "$program: $option=1: given twice" | misuse $option=1 $option=1 "$@"
    done
    echo "$program: 17: --comparisons is a whole number from 0 to 16" | misuse --members 129 --comparisons 17 --depth 0 "$@"
}

# the runner reads under the settings and judges nothing
settings_runs() {
    lines 0 --depth 129 nest-129 1 << 'END'
# nest-129: ended under comparisons 10, depth 129, members 64, after 1 step
END
    lines 1 nest-129 1 << 'END'
# nest-129:129: refused 4: a word is deeper than the settings allow; depth 128; after 0 steps
END
    lines 1 --members 64 set-65 1 << 'END'
# set-65:2: refused 5: a word's kind or payload isn't allowed there; members 64; after 0 steps
END
    lines 1 misplaced 1 << 'END'
# misplaced:1: refused 5: a word's kind or payload isn't allowed there; after 0 steps
END
    lines 0 --members=128 set-128 1 << 'END'
# set-128: ended under comparisons 10, depth 128, members 128, after 1 step
END
    lines 0 over-17 1 << 'END'
# over-17: ended after 1 step
END
    lines 0 --comparisons 0 --depth 1 --members 0 good 1 << 'END'
# good: ended under comparisons 0, depth 1, members 0, after 1 step
END
    lines 1 --comparisons 16 --depth 256 --members 128 good 0 << 'END'
# good:1: refused 13: the budget is used up and a step is due; after 0 steps
END
    lines 0 --json --depth 256 nest-256 1 << 'END'
{"file":"nest-256","verdict":"ended","number":null,"place":null,"meaning":null,"settings":{"comparisons":10,"depth":256,"members":64},"steps":1,"changed":{}}
END
    lines 1 --json --depth 256 nest-257 1 << 'END'
{"file":"nest-257","verdict":"refused","number":4,"place":257,"meaning":"a word is deeper than the settings allow","settings":{"comparisons":10,"depth":256,"members":64},"steps":0,"changed":{}}
END
}

# raised: flowgate's lines under the largest settings as `FILE: ` and what ./check writes
raised() {
    $run --comparisons 16 --depth 256 --members 128 "$@" | sed 's/ under comparisons 16, depth 256, members 128$//' | lines_of_check
}

# the rows of tests/rows.tsv and the examples under the largest settings: no answer changes but refusals 4, 5 and 9. `due` is as all_rows
# left it.
raised_rows() {
    program=flowgate
    grep -v -e ' refused [459] ' due > kept
    awk -F '\t' '/^#/ { next } { sub("^file:", "", $3); print $3 ": " $2 }' "$root/examples/expected.tsv" > examples-due
    raised rows/* > got
    awk 'NR == FNR { due[$1] = $0; next } $1 in due { print }' kept got | diff kept - || wrong "the rows under the largest settings"
    (cd "$root/examples" && raised $(sed 's/: .*//' "$work/examples-due")) | diff examples-due - || wrong "the examples under the largest settings"
    tried $(($(wc -l < kept) + $(wc -l < examples-due)))
    [ "$(wc -l < kept)" -ge 2878 ] || wrong "tests/rows.tsv: $(wc -l < kept) rows have other answers than 4, 5 and 9"
}

settings_cases() {
    [ -e over-17 ] || settings_files
    program=flowgate
    range_ends
    raised_settings
    other_refusals
    parts_under_settings
    settings_json
    [ $run = in_valgrind ] || settings_misuse missing --program missing
    program=flowrun
    settings_runs
    [ $run = in_valgrind ] || settings_misuse missing 1
}
