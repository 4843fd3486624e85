# examples/ci: a build that stops; and the lines that README.md shows of its certificates.

# build CERTIFICATE STATUS LINE: the build's exit status, and flowgate's line; there is an image only if it is 0
build() {
    rm -f ci/image
    make -s -C ci "FLOWGATE=$bin/flowgate" "CERTIFICATE=$1" > got 2> got-err
    got=$?
    tried 1
    image=0
    [ -e ci/image ] || image=2
    if [ $got -ne "$2" ] || [ $image -ne "$2" ] || [ "$(cat got)" != "$3" ]; then
        wrong "examples/ci, $1: exit status $got, $(cat got got-err)"
    fi
}

# the order is what --parts writes of the good certificate; the leak is that of README.md, whose command gives the lines below it
ci_files() {
    tried 3
    mkdir parts
    "$bin/flowgate" --quiet --parts parts "$root/examples/ci/good.cert"
    diff -r parts "$root/examples/ci/ordered" || wrong "examples/ci/ordered"
    words $(sed -n 's/.*contract\. `\(63:6 [0-9: ]*\)`.*/\1/p' "$root/README.md") | cmp - "$root/examples/ci/leak.cert" || wrong "examples/ci/leak.cert"
    sed -n 's|^    \([a-z-]*\.cert:.*\)|\1|p' "$root/README.md" > due
    command=$(sed -n 's|^    \(\.\./\.\./target/c/bin/flowgate .*\)|\1|p' "$root/README.md")
    (cd "$root/examples/ci" && sh -c "$command") > got
    [ "$(wc -l < due)" -eq 3 ] && diff due got || wrong "README.md: $command"
}

ci_cases() {
    cp -R "$root/examples/ci" ci
    build good.cert 0 'good.cert: accepted 1'
    tried 1
    cmp ci/image ci/ordered/program || wrong "examples/ci: the image"
    build leak.cert 2 'leak.cert:2: differs: word 1 of the program is 2:1, ordered is 2:2'
    build leak-ordered.cert 2 "leak-ordered.cert:9: refused 8: a rule's condition fails; at word 9: 9:1 2:0 [33:3]"
    build missing.cert 2 ''
    ci_files
}
