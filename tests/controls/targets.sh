# shellcheck shell=bash
# The libraries for other targets. That another header is told needs a machine that runs programs for i686.
compared() {
    tests/targets.sh i686 >"$room/said" || { cat "$room/said"; return 1; }
}
passes 'targets, as they are' compared
if grep -q ': run, and the same' "$room/said"; then
    mkdir "$room/header"
    cp docs/styrmflo.h "$room/header"
    change "$room/header/styrmflo.h" 's/uint64_t ([a-z]+_count)/__SIZE_TYPE__ \1/g'
    fails 'targets, counts as wide as a pointer' 'the caller of the shipped archive' env TARGETS_HEADER="$room/header/styrmflo.h" tests/targets.sh i686
    cp docs/styrmflo.h "$room/header"
    change "$room/header/styrmflo.h" 's/(STYRMFLO_VERSION) 1/\1 2/'
    fails 'targets, a header of another version' 'the version: 2, not 1' env TARGETS_HEADER="$room/header/styrmflo.h" tests/targets.sh i686
fi
fails 'library, a target that the compiler has not' 'makes nothing for' tests/targets.sh nonsense-none-eabi
fails 'library, a name that is no target' 'library [TARGET' tests/targets.sh nonsense

# What ./library writes is compiled from the module as it stands, and it says so of the target that was named.
says() { # TEXT WORDS..
    local text=$1
    shift
    ./library "$@" | grep -qF "$text"
}
passes 'library, what is proved' says 'proved: the code in crates/' i686
passes 'library, what is not' says "not proved: that module's compilation for i686-unknown-linux-gnu (clang version" i686
passes 'library, with the words that it was compiled with' says ', -Os)' i686 -Os
passes 'library, what is to be brought' says 'you bring: __aeabi_idiv memcpy memset' armv7
ends_with_2() {
    local status=0
    { "$@" >"$room/out"; } 2>/dev/null || status=$?
    [ "$status" = 2 ]
}
passes 'library, a wrong target ends with 2' ends_with_2 ./library nonsense-none-eabi
passes 'library, wrong use ends with 2' ends_with_2 ./library --help
passes 'library, words that leave no object end with 2' ends_with_2 ./library x86_64 -flto
passes 'library, what it says is lost' ends_with_2 eval './library i686 >/dev/full'
passes 'library, chains that cannot be read off' says 'not known: ' thumbv7em -mlong-calls
passes 'library, chains as they are read off' says '    styrmflo_display 1' thumbv7em
