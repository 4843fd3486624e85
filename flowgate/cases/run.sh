# flowrun: stores as words and files, ends and refusals, what changed, and bad use.

# 63:6 31:32 24:0 32:0 32:0 33:10 is a `for` over scalar 0 up to scalar 1; put 63:9 .. sets array 31 at the index scalar 0 to -1;
# constants 63:15 .. sets four scalars to the constants of the least and the greatest payload of each case of request [4];
# guarded 63:18 .. sets scalar 1 to 1 if scalar 0 is at most 63 and array 0 has 1 there, else to 2
run_files() {
    words 63:6 31:32 24:0 32:0 32:0 33:10 > upto
    words 63:9 28:31 18:0 16:31 2:0 1:67108863 32:0 32:0 33:10 > put
    words 63:15 25:0 27:0 1:0 25:0 27:1 1:33554431 25:0 27:2 1:33554432 27:3 1:67108863 32:0 32:0 33:10 > constants
    words 63:8 27:0 3:2 2:0 2:0 32:0 32:0 33:10 > square
    words 63:6 26:0 9:0 32:0 32:0 33:10 > false
    words 63:6 27:0 2:31 32:0 32:0 33:10 > take
    words 63:18 29:0 10:0 8:2 2:0 1:63 8:0 4:0 16:0 2:0 1:1 27:1 1:1 27:1 1:2 32:0 32:0 33:10 > guarded
}

runs_ended() {
    lines 0 upto 11 x1=3 << 'END'
# upto: ended after 11 steps
x0=4
END
    lines 0 upto 2 x1=-5 << 'END'
# upto: ended after 2 steps
x0=1
END
    lines 0 put 1 x0=63 << 'END'
# put: ended after 1 step
a31[63]=-1
END
    lines 0 put 1 x0=63 'a31[63]=-1' << 'END'
# put: ended after 1 step
END
    lines 0 constants 4 x0=7 << 'END'
# constants: ended after 4 steps
x0=0
x1=33554431
x2=-33554432
x3=-1
END
    lines 0 take 1 x0=5 << 'END'
# take: ended after 1 step
x0=0
END
    lines 0 guarded 2 x0=63 'a0[63]=1' << 'END'
# guarded: ended after 2 steps
x1=1
END
    lines 0 guarded 2 x0=64 << 'END'
# guarded: ended after 2 steps
x1=2
END
    input=upto
    lines 0 - 11 x1=3 << 'END'
# -: ended after 11 steps
x0=4
END
    input=/dev/null
}

runs_refused() {
    lines 1 upto 10 x1=3 << 'END'
# upto:1: refused 13: the budget is used up and a step is due; after 10 steps
x0=4
END
    lines 1 upto 0 x1=3 << 'END'
# upto:1: refused 13: the budget is used up and a step is due; after 0 steps
END
    lines 1 upto 1000001 << 'END'
# upto:0: refused 10: the budget is over 1,000,000; after 0 steps
END
    lines 1 put 1 x0=64 << 'END'
# put:1: refused 15: an index is outside 0 to 63; after 0 steps
END
    lines 1 guarded 2 x0=-1 << 'END'
# guarded:1: refused 15: an index is outside 0 to 63; after 0 steps
END
    lines 1 square 1 x0=3037000500 << 'END'
# square:1: refused 14: a value leaves the signed 64-bit range; after 0 steps
END
    lines 1 false 1 << 'END'
# false:1: refused 12: an assertion is false; after 0 steps
END
    lines 1 short 1 << 'END'
# short:4: refused 3: the file ends where a word is due; after 0 steps
END
    lines 1 long 1 << 'END'
# long:0: refused 1: the byte count is 0, over 32,768 or no multiple of 4; after 0 steps
END
}

# the whole range of values, and a later word over an earlier one
run_values() {
    for value in 9223372036854775807 -9223372036854775808 -1 0 00012; do
        { echo '# take: ended after 1 step'; [ $value = 0 ] || echo "x0=$(printf %s $value | sed 's/^00*//')"; } | lines 0 take 1 x31=$value
    done
    lines 0 take 1 x31=5 x31=6 << 'END'
# take: ended after 1 step
x0=6
END
    lines 0 take 1 ' x31=5,x31=6 x1=2,, # x31=7' << 'END'
# take: ended after 1 step
x0=6
END
    lines 0 square 1 x0=-3037000499 << 'END'
# square: ended after 1 step
x0=9223372030926249001
END
}

# files of words; what a run writes is such a file
run_stores() {
    printf 'x1=3 # the bound\n\n\tx2=4,\r\na0[0]=1,a31[63]=-2' > store
    lines 0 upto 11 @store << 'END'
# upto: ended after 11 steps
x0=4
END
    lines 0 put 1 x0=63 @store << 'END'
# put: ended after 1 step
a31[63]=-1
END
    lines 0 upto 20 @store x1=5 << 'END'
# upto: ended after 17 steps
x0=6
END
    input=store
    lines 0 upto 11 @- << 'END'
# upto: ended after 11 steps
x0=4
END
    input=/dev/null
    : > nothing
    lines 0 upto 2 @nothing << 'END'
# upto: ended after 2 steps
x0=1
END
    "$bin/flowrun" square 1 x0=3 'a1[2]=5' > changes
    lines 0 square 1 @changes << 'END'
# square: ended after 1 step
x0=81
END
    "$bin/flowrun" upto 7 x1=3 > changes
    lines 0 take 1 @changes x31=9 << 'END'
# take: ended after 1 step
x0=9
END
}

run_json() {
    lines 0 --json put 1 x0=63 << 'END'
{"file":"put","verdict":"ended","number":null,"place":null,"meaning":null,"steps":1,"changed":{"a31[63]":"-1"}}
END
    words 63:9 25:0 27:0 1:1 27:31 1:2 32:0 32:0 33:10 > both
    lines 0 both 2 --json << 'END'
{"file":"both","verdict":"ended","number":null,"place":null,"meaning":null,"steps":2,"changed":{"x0":"1","x31":"2"}}
END
    lines 1 --json upto 0 << 'END'
{"file":"upto","verdict":"refused","number":13,"place":1,"meaning":"the budget is used up and a step is due","steps":0,"changed":{}}
END
}

run_options() {
    echo "flowrun $version" | lines 0 --version
    "$bin/flowrun" --help > out
    : > err
    expect 0 --help
    for word in usage: STORE @FILE --comparisons --depth --members --json --quiet 'Exit status: 0'; do
        tried 1
        grep -q -e "$word" out || wrong "flowrun --help: it has no $word"
    done
    silent 0 --quiet upto 11 x1=3
    silent 1 --quiet upto 10 x1=3
    silent 2 --quiet missing 10
    silent 2 --quiet upto 10 @missing
    lines 0 -- -good 1 << 'END'
# -good: ended after 1 step
END
    full_device upto 11 x1=3
    full_device --json upto 11 x1=3
    full_device --help
}

run_misuse() {
    form='no word of the form x1=5 or a0[3]=7'
    misuse < /dev/null
    misuse upto < /dev/null
    echo 'flowrun: --jason: unknown option' | misuse --jason upto 1
    echo 'flowrun: --json: not with --quiet' | misuse --json --quiet upto 1
    echo 'flowrun: -: standard input is read once' | misuse - 1 @-
    echo 'flowrun: -: standard input is read once' | misuse upto 1 @- @-
    echo 'flowrun: -1: unknown option' | misuse upto -1
    for budget in x1=3 1x '' 1.5 ' 1' +1; do
        echo "flowrun: $budget: no whole number" | misuse upto "$budget"
    done
    echo 'flowrun: 18446744073709551616: too large a number' | misuse upto 18446744073709551616
    echo 'flowrun: x32=1: scalars are x0 to x31' | misuse upto 1 x32=1
    echo 'flowrun: x4294967296=1: scalars are x0 to x31' | misuse upto 1 x4294967296=1
    echo 'flowrun: x18446744073709551616=1: scalars are x0 to x31' | misuse upto 1 x1=1 x18446744073709551616=1
    echo 'flowrun: a32[0]=1: arrays are a0 to a31' | misuse upto 1 'a32[0]=1'
    echo 'flowrun: a0[64]=1: indexes are 0 to 63' | misuse upto 1 'a0[64]=1'
    for value in 9223372036854775808 -9223372036854775809 18446744073709551616 -99999999999999999999999; do
        echo "flowrun: x1=$value: a value outside the signed 64-bit range" | misuse upto 1 "x1=$value"
    done
    long_word=x1=$(printf '%60s' '' | tr ' ' 1)
    echo "flowrun: $long_word: too long a word" | misuse upto 1 "$long_word"
}

# words that are no store's
run_forms() {
    for word in x 'x=1' x1 x1= x1=- x1=+1 x1=1x x1=0x5 X1=1 y1=1 1=1 '=1' a1=1 'a1[=1' 'a1[]=1' 'a1[1=1' 'a1[1]' 'a1[1]1=1' 'a[1]=1' x1==1 \
        'a1[-1]=1' x-1=1 'x1[1]=1' x1=--1; do
        echo "flowrun: $word: $form" | misuse upto 1 "$word"
    done
}

# files of words that can't be read, or with a fault: its line and word are told
run_faults() {
    errors 2 missing 1 << 'END'
flowrun: missing: No such file or directory
END
    errors 2 folder 1 << 'END'
flowrun: folder: Is a directory
END
    errors 2 upto 1 @missing << 'END'
flowrun: missing: No such file or directory
END
    errors 2 upto 1 @folder << 'END'
flowrun: folder: Is a directory
END
    errors 2 upto 1 @ << 'END'
flowrun: : No such file or directory
END
    printf 'x1=1\n# x\n\nx2=2 x32=1\nx3=3' > store
    errors 2 upto 1 @store << 'END'
flowrun: store:4: x32=1: scalars are x0 to x31
END
    printf 'x1=1\nx2\n' > store
    echo "flowrun: store:2: x2: $form" | errors 2 upto 1 @store
    printf 'x1=5\0006' > store
    echo "flowrun: store:1: x1=5?6: $form" | errors 2 upto 1 @store
    printf 'x1=\033[2J' > store
    echo "flowrun: store:1: x1=?[2J: $form" | errors 2 upto 1 @store
    printf '\nx2=%080d' 1 > store
    printf 'flowrun: store:2: x2=%060d: too long a word\n' 0 | errors 2 upto 1 @store
}

run_cases() {
    program=flowrun
    run_files
    runs_ended
    runs_refused
    run_values
    run_stores
    run_json
    run_options
    run_misuse
    [ $run = in_valgrind ] || run_forms
    run_faults
}

# store_words: cells of tests/runs.tsv (0 to 31 the scalars, 32 + 64 × a + i array a at i) as words, a line each
store_words() {
    tr ',' '\n' | awk -F = 'NF == 2 && $1 < 32 { print "x" $1 "=" $2 }
        NF == 2 && $1 >= 32 { print "a" int(($1 - 32) / 64) "[" ($1 - 32) % 64 "]=" $2 }'
}

# the runs of tests/runs.tsv
all_runs() {
    program=flowrun
    grep -v '^#' "$runs" | tr '\t' '|' > table
    count=0
    while IFS='|' read -r name budget end steps hex lent changed; do
        count=$((count + 1))
        printf '%s\n' "$hex" | bytes > file
        printf '%s\n' "$lent" | store_words > store
        { echo "$end $steps"; printf '%s\n' "$changed" | store_words; } > due
        $run file "$budget" @store > said
        status=$?
        sed '1s/^# file: ended after \([0-9]*\) steps*$/ended \1/
            1s/^# file:\([0-9]*\): refused \([0-9]*\): .* after \([0-9]*\) steps*$/refused \2 \1 \3/' said > got
        case $end$status in
            ended0 | refused*1) diff due got || wrong "flowrun: the run $name of tests/runs.tsv" ;;
            *) wrong "flowrun: the run $name of tests/runs.tsv: exit status $status" ;;
        esac
    done < table
    tried "$count"
    [ "$count" -ge 504 ] || wrong "tests/runs.tsv: it has $count runs"
}
