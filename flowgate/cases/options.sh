# flowgate's command line: standard input, --, --help, --version, --quiet, --json, and bad use.

# of input that does not end, no more is read than one byte over the limit
standard_input() {
    input=good
    lines 0 - << 'END'
-: accepted 1
END
    input=rule
    lines 1 copy - << 'END'
copy: accepted 1
-:9: refused 8: a rule's condition fails; at word 9: 9:1 2:0 [33:3]
END
    input=/dev/zero
    lines 1 - << 'END'
-:0: refused 1: the byte count is 0, over 32,768 or no multiple of 4; over 32768 bytes; at word 0: [0:0] 0:0 0:0
END
    input=/dev/null
    lines 1 - << 'END'
-:0: refused 1: the byte count is 0, over 32,768 or no multiple of 4; 0 bytes; at word 0: [no word, the file ends]
END
    input=folder
    errors 2 - << 'END'
flowgate: -: Is a directory
END
    input=/dev/null
    errors 2 ./- << 'END'
flowgate: ./-: No such file or directory
END
}

# help, the version, the end of options, and options behind files
words_of_options() {
    echo "$program $version" > out
    : > err
    expect 0 --version
    expect 0 good --version --help
    "$bin/$program" --help > out
    expect 0 --help
    for word in usage: --program --precondition --postcondition --contract --parts --comparisons --depth --members --show --json --quiet 'Exit status: 0'; do
        tried 1
        grep -q -e "$word" out || wrong "flowgate --help: it has no $word"
    done
    full_device --help
    full_device --version
    lines 0 -- -good good << 'END'
-good: accepted 1
good: accepted 1
END
    errors 2 -- --help -- << 'END'
flowgate: --help: No such file or directory
flowgate: --: No such file or directory
END
    silent 0 good --quiet copy
}

quiet_lines() {
    silent 0 --quiet good copy
    silent 1 --quiet good rule
    silent 2 --quiet good rule missing
    silent 2 --quiet --program missing good
    silent 1 --quiet --program good good
    silent 2 --quiet --parts missing good
}

json_lines() {
    lines 1 --json good rule long << 'END'
{"file":"good","verdict":"accepted","number":null,"place":null,"count":1,"meaning":null}
{"file":"rule","verdict":"refused","number":8,"place":9,"count":null,"meaning":"a rule's condition fails"}
{"file":"long","verdict":"refused","number":1,"place":0,"count":null,"meaning":"the byte count is 0, over 32,768 or no multiple of 4"}
END
    lines 2 --json missing good << 'END'
{"file":"missing","verdict":"unreadable","number":null,"place":null,"count":null,"meaning":"No such file or directory"}
{"file":"good","verdict":"accepted","number":null,"place":null,"count":1,"meaning":null}
END
    lines 1 --json --precondition copy-precondition leak << 'END'
{"file":"leak","verdict":"differs","number":null,"place":3,"count":1,"meaning":"the precondition is not as ordered","part":"precondition","word":0,"is":"32:0","ordered":"32:1"}
END
    lines 1 --json --program empty leak << 'END'
{"file":"leak","verdict":"differs","number":null,"place":1,"count":1,"meaning":"the program is not as ordered","part":"program","word":0,"is":"27:0","ordered":null}
END
    full_device --json good
}

# names that JSON must escape, and bytes that are no UTF-8: cut short, too long for their character, a surrogate, above U+10FFFF
json_names() {
    lines 2 --json 'a"b\c' "$(printf 'd\te\001\177\nf')" "$(printf '\303\251\342\202\254\360\237\230\200')" \
        "$(printf 'g\377h\303')" "$(printf '\300\257\355\240\200\364\220\200\200\340\237\277')" "$(printf '\360\217\277\277')" << 'END'
{"file":"a\"b\\c","verdict":"unreadable","number":null,"place":null,"count":null,"meaning":"No such file or directory"}
{"file":"d\u0009e\u0001\u007f\u000af","verdict":"unreadable","number":null,"place":null,"count":null,"meaning":"No such file or directory"}
{"file":"é€😀","verdict":"unreadable","number":null,"place":null,"count":null,"meaning":"No such file or directory"}
{"file":"g\ufffdh\ufffd","verdict":"unreadable","number":null,"place":null,"count":null,"meaning":"No such file or directory"}
{"file":"\ufffd\ufffd\ufffd\ufffd\ufffd\ufffd\ufffd\ufffd\ufffd\ufffd\ufffd\ufffd","verdict":"unreadable","number":null,"place":null,"count":null,"meaning":"No such file or directory"}
{"file":"\ufffd\ufffd\ufffd\ufffd","verdict":"unreadable","number":null,"place":null,"count":null,"meaning":"No such file or directory"}
END
}

bad_options() {
    echo 'flowgate: --quite: unknown option' | misuse --quite good
    echo 'flowgate: -q: unknown option' | misuse good -q
    echo 'flowgate: --json=yes: unknown option' | misuse --json=yes good
    echo 'flowgate: --prog: unknown option' | misuse --prog copy good
    echo 'flowgate: --program: its value is missing' | misuse good --program
    echo 'flowgate: --program: given twice' | misuse --program copy --program copy good
    echo 'flowgate: --contract=b: given twice' | misuse --contract=a --contract=b good
    echo 'flowgate: --contract: it orders every part already' | misuse --contract folder --postcondition copy good
    echo 'flowgate: -: standard input is read once' | misuse - good -
    echo 'flowgate: -: standard input is read once' | misuse --program - -
    echo 'flowgate: --parts: more than one certificate' | misuse --parts folder good copy
    echo 'flowgate: --show: not with --json' | misuse --show --json good
    echo 'flowgate: --show: not with --quiet' | misuse --quiet --show good
    echo 'flowgate: --json: not with --quiet' | misuse --quiet --json good
    misuse --quiet < /dev/null
    misuse -- < /dev/null
}

option_cases() {
    program=flowgate
    words 32:1 9:1 2:1 > copy-precondition
    standard_input
    words_of_options
    quiet_lines
    json_lines
    json_names
    bad_options
}
