# ./library --prefix: what is installed is enough to build and run a program in C and one in C++, and takes no more from outside than it did; the
# pages of manual.

# a program that checks, finds a part, runs, says what a number means, and uses masks and settings, in C and C++ alike
user_program() {
    cat << 'END'
#include <stdio.h>
#include <string.h>
#include <flowcheck.h>

static const uint8_t loop[] = {
    6, 0, 0, 0xfc, 0x20, 0, 0, 0x7c, 0, 0, 0, 0x60, 0, 0, 0, 0x80, 0, 0, 0, 0x80, 10, 0, 0, 0x84,
};

int main(void)
{
    static int64_t scalars[FLOW_SCALARS], values[FLOW_VALUES];
    static uint64_t masks[FLOW_MOST_WORDS];
    uint8_t copy[sizeof loop];
    uint32_t answer = flow_check(loop, sizeof loop);
    uint64_t ran = flow_run(loop, sizeof loop, scalars, FLOW_SCALARS, values, FLOW_VALUES, 1, FLOW_STANDARD_SETTINGS);
    printf("%s %d %d\n", FLOWCHECK_VERSION, flow_accepted(answer), (int)flow_past(flow_program(loop, sizeof loop, FLOW_MOST_SETTINGS)));
    printf("%d %s\n", (int)flow_run_place(ran), flow_meaning(flow_run_number(ran)));
    printf("%d\n", (int)flow_number(flow_check_bytes(NULL, 0)));
    memcpy(copy, loop, sizeof loop);
    printf("%d", (int)flow_check_masks(copy, sizeof copy, masks, FLOW_MOST_WORDS, FLOW_STANDARD_SETTINGS));
    printf(" %d", flow_modifies_scalar(masks[1], 0));
    printf(" %d", flow_was_put(flow_put(copy, sizeof copy, masks, FLOW_MOST_WORDS, 2, loop + 8, 4, FLOW_STANDARD_SETTINGS)));
    printf(" %d\n", (int)flow_number(flow_check_settings(loop, sizeof loop, 16, 257, 128)));
    return 0;
}
END
}

# build_user COMPILER WORD...: the program built with the installed header and library alone, and run
build_user() {
    tried 1
    printf '%s 1 3\n1 the budget is used up and a step is due\n1\n1 1 1 19\n' "$version" > due
    if ! "$@" -pedantic -Wall -Wextra -Werror $cflags -o user "$source" $libs || ! ./user > got || ! diff due got; then
        wrong "a program built with what is installed: $*"
    fi
}

user_programs() {
    if command -v pkg-config > /dev/null; then
        cflags=$(PKG_CONFIG_PATH=$prefix/lib/pkgconfig pkg-config --cflags flowcheck)
        libs=$(PKG_CONFIG_PATH=$prefix/lib/pkgconfig pkg-config --libs flowcheck)
        tried 1
        [ "$(PKG_CONFIG_PATH=$prefix/lib/pkgconfig pkg-config --modversion flowcheck)" = "$version" ] || wrong "flowcheck.pc: its version"
    else
        cflags=$(sed -n "s|^Cflags: ||; s|\${includedir}|$prefix/include|p" "$prefix/lib/pkgconfig/flowcheck.pc")
        libs=$(sed -n "s|^Libs: ||; s|\${libdir}|$prefix/lib|p" "$prefix/lib/pkgconfig/flowcheck.pc")
    fi
    user_program > user.c
    cp user.c user.cc
    source=user.c
    build_user "${CC:-cc}" -std=c99 -Wconversion
    build_user "${CC:-cc}" -std=c11
    source=user.cc
    build_user "${CXX:-c++}" -std=c++17
    build_user "${CXX:-c++}" -std=c++98
}

# the header by itself, with every warning that a user may have as an error
header_alone() {
    echo '#include <flowcheck.h>' > alone.c
    cp alone.c alone.cc
    more="-pedantic -Wall -Wextra -Werror -Wshadow -Wconversion -Wsign-conversion -Wcast-qual -Wundef"
    tried 2
    ${CC:-cc} -std=c99 $more -I"$prefix/include" -c -o alone.o alone.c || wrong "the header in C"
    ${CXX:-c++} -std=c++17 $more -Wold-style-cast -I"$prefix/include" -c -o alone.o alone.cc || wrong "the header in C++"
}

# the pages name every option of --help, and groff has no warning on them
pages() {
    for program in flowgate flowrun; do
        page=$prefix/share/man/man1/$program.1
        for option in $("$prefix/bin/$program" --help | grep -o -e '--[a-z]*' | sort -u); do
            tried 1
            sed 's/\\-/-/g' "$page" | grep -q -e "^\.BI* $option\( \|$\)" -e "^\.BR.* $option\(\"\| \|$\)" -e "^\.B -$option$" ||
                wrong "$program.1: no $option"
        done
        if command -v groff > /dev/null; then
            tried 1
            groff -man -Tutf8 -ww -z "$page" > said 2>&1
            [ ! -s said ] || wrong "$program.1: $(cat said)"
        fi
    done
}

# what the library takes from outside: these two functions of the C library, or of a freestanding program's own, and nothing else
taken_from_outside() {
    tried 1
    printf 'memcpy\nmemset\n' > due
    nm -u "$prefix/lib/libflowcheck.a" | awk '$1 == "U" { print $2 }' | LC_ALL=C sort -u > got
    diff due got || wrong "what libflowcheck.a takes from outside"
}

install_cases() {
    prefix=$work/installed
    tried 1
    (cd "$work" && "$root/library" --prefix installed) > said || wrong "./library --prefix"
    (cd installed && find . -type f | sort) > got
    printf './%s\n' bin/flowgate bin/flowrun include/flowcheck.h lib/libflowcheck.a lib/pkgconfig/flowcheck.pc \
        share/man/man1/flowgate.1 share/man/man1/flowrun.1 > due
    diff due got || wrong "./library --prefix: its files"
    tried 1
    [ "$(installed/bin/flowgate good)" = 'good: accepted 1' ] || wrong "the installed flowgate"
    for words_of_use in --prefix '--prefix=a' '--help' '--prefix a b'; do
        tried 1
        "$root/library" $words_of_use > got 2> got-err
        [ $? -eq 2 ] && [ "$(cat got-err)" = 'usage: library [--prefix DIR]' ] || wrong "./library $words_of_use"
    done
    taken_from_outside
    user_programs
    header_alone
    pages
}
