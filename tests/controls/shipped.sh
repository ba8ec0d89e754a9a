# shellcheck shell=bash
# The caller with other numbers in the header, and with an archive whose functions do nothing.
compared=$top/tests/target/release/shipped_comparison
export READER_LIBRARY=${READER_LIBRARY:?} READER_SHIPPED=${READER_SHIPPED:?}

other() { # NAME TEXT SED-COMMAND
    copy docs tests/shipped
    change docs/styrmflo.h "$3"
    READER_SHIPPED=$(tests/shipped.sh "$top/crates/exports/out/libexports.a" "$room/other")
    fails "$1 in the header" "$2" "$compared"
}
other 'another W' 'W: 97601, not 9760' 's/(STYRMFLO_WORK_WORDS [0-9]+)/\11/'
other 'another version' 'the version: 2, not 1' 's/(STYRMFLO_VERSION) 1/\1 2/'
other 'a shorter listing' 'the longest listing: 80861, not 80862' 's/80862/80861/'
other 'another number' 'STUCK: 13, not 11' 's/STYRMFLO_STUCK = 11/STYRMFLO_STUCK = 13/'
other 'another tag' 'a tag: 4, not 3' 's/(STYRMFLO_TEXT_IN_MESSAGE =) 3/\1 4/'

cd "$top"
mkdir -p "$room/nothing"
# of the right version, or nothing else would be asked
tests/promises.sh --list | sed -nE 's/^exports::(.*)/unsigned long \1(void);\nunsigned long \1(void) { return 0; }/p' | sed '/version.*{/s/0/1/' >"$room/nothing/nothing.c"
tests/c.sh docs/styrmflo.h -c "$room/nothing/nothing.c" -o "$room/nothing/nothing.o"
READER_SHIPPED=$(tests/shipped.sh "$room/nothing/nothing.o" "$room/nothing")
fails 'an archive that does nothing, compared' 'case A is read' "$compared"
fails 'an archive that does nothing, vectors' 'listing.cases, shipped: ' tests/vectors.sh
READER_SHIPPED=true
fails 'no archive' 'the caller of the shipped archive' tests/vectors.sh
unset READER_SHIPPED
fails 'no archive at hand' "shipped isn't at hand" tests/vectors.sh
