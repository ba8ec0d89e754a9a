# shellcheck shell=bash
# Programs with a warning, with a slip that a display would show, or that read past what is lent; C and Rust that differ; an array that isn't the listing's table.
export READER_LIBRARY=${READER_LIBRARY:?}
c=examples/firmware/display.c
rust=examples/firmware/display.rs
array=examples/firmware/array.c
fitted=examples/firmware/fitted.c

# Nothing is proved in the copy: its library is the one at hand.
fresh() {
    copy array docs examples tests/console tests/firmware tests/shipped
    printf '#!/bin/sh\necho "%s"\n' "$READER_LIBRARY" >tests/library.sh
    printf '#!/bin/sh\nprintf "%s/"\ncd "%s" && exec ./library "$@"\n' "$top" "$top" >library
    chmod +x library
    mkdir target
    ln -s "$top/target/library" target/library
}

changed() { # NAME TEXT PART FILE SED-COMMAND
    fresh
    change "$4" "$5"
    fails "firmware, $1" "$2" tests/firmware.sh "$3"
}

fresh
passes 'firmware as it is' tests/firmware.sh
fails 'firmware, a part that is not there' 'no such part' tests/firmware.sh more

changed 'a warning in C' "$c: cc has a warning" warnings "$c" 's/^    uint32_t budget = 100000;/&\n    int more;/'
changed 'a number that is forgotten' 'STYRMFLO_OUT' warnings "$c" '/case STYRMFLO_OUT:/d'
changed 'a tag that is forgotten' 'STYRMFLO_INTEGER' warnings "$c" '/^        case STYRMFLO_INTEGER:$/d'
changed 'a warning in an array' 'fitted.c: cc has a warning' warnings "$array" 's/ PRIu64 "\] = \{\\n", name, all/ PRIu64 "] = { -1,\\n", name, all/'
changed 'a warning in Rust' "$rust: not compiled" warnings "$rust" 's/^    let mut said = String::new\(\);/&\n    let more = 1;/'
changed 'an array that is no C++' 'C++11' warnings "$array" 's|#include <stdint\.h>\\n\\n|&static const uint8_t *const more = (const void *)0;\\n|'

changed 'another stored value' 'under-the-street.console: not the stored answer' console examples/basement/under-the-street.answer 's/value=2 -3/value=2 -4/'
changed 'another stored text' 'up.console: not the stored answer' console examples/floor-direction-name/up.answer 's/value=3 7570/value=3 7571/'
changed 'another stored number' 'museum.console: not the stored answer' console examples/destination/museum.answer 's/answer=0/answer=8/'
changed 'another stored place' 'too-large.console: not the stored answer' console examples/basement/too-large.answer 's/place=48/place=49/'
changed 'bytes of the message for those of the literals' 'C and Rust differ' console "$c" 's/literal \? literals : message/literal ? message : literals/'
changed 'another word in Rust' 'C and Rust differ' console "$rust" 's/the message matches/the message fits/'
changed 'another exit status in Rust' 'C and Rust differ' console "$rust" 's/u8::from\(!shown\)/u8::from(shown)/'
fresh
rm tests/console/*.console
fails 'firmware, few inputs' 'inputs' tests/firmware.sh console
fresh
rm tests/console/deep-display.* examples/recursion/too-deep.*
fails 'firmware, a number that is never reached' 'answer 10 is never reached' tests/firmware.sh console use

changed 'no look at the version' 'C and Rust differ' use "$c" 's/styrmflo_version\(\) != STYRMFLO_VERSION/0/'
changed 'output that is lost' 'to a full device: ended with 1' use "$c" 's/fflush\(stdout\) != 0 \|\| ferror\(stdout\)/0/'
changed 'a message that is cut off' 'C and Rust differ' use "$c" 's/^(static uint8_t message\[STYRMFLO_MOST_MESSAGE) \+ 1/\1/'

changed 'a number of 64 bits taken for one of 32' 'rows_c: not what' rows "$c" '/^    if \(\(uint64_t\)known == number\)$/d'
changed 'a tag of 32 bits taken for one of 8' 'rows_short: not what' rows "$c" '/^    if \(\(uint32_t\)known == tag\)$/d'
changed 'a number without a row, shown' 'rows_rs: not what' rows "$rust" '/"\(no row\)",/,/\)/s/Refuse/Show/'
changed 'a value without a row, shown' 'rows_c: not what' rows "$c" 's/return payload <= 1;/return payload <= 2;/'
changed 'other words stored' 'rows_c: not what' rows tests/firmware/rows.stored 's/answer 11 STUCK/answer 11 DONE/'
: >tests/firmware/rows.stored
fails 'firmware, nothing stored' 'rows_c: not what' tests/firmware.sh rows

changed 'a table that is refused, written' 'ended with 0, not with 1' array "$array" 's/if \(verdict != 0\)/if (verdict == 1)/'
changed 'other literals' 'another table' array "$array" 's/literals\[i\]\)/literals[i] ^ 1u)/'
changed 'other words' "can't be written as a listing" array "$array" 's/put_words\(0, 3\)/put_words(1, 3)/'
changed 'lines that count from the listing' 'another place than is stored' array "$array" 's/\? left_out : 0/? 0 : left_out/'
changed 'a name that is none' 'ended with 0, not with 2' array "$array" 's/MOST_NAME = 48/MOST_NAME = 49/'
changed 'an array that is lost' 'standard output closed: ended with 0' array "$array" 's/fflush\(stdout\) != 0 \|\| ferror\(stdout\)/0/'
changed 'no look for cc' './array without cc' array array 's/for tool in rt cc/for tool in rt/'

changed 'a rest that is shown' 'not what tests/firmware/fitted.stored says' fitted "$fitted" 's/ && record\[STYRMFLO_CONSUMED\] == count/ \&\& record[STYRMFLO_CONSUMED] <= count/'
changed 'a table that is not checked' 'shows something by a table that fails the type check' fitted "$fitted" 's/ && styrmflo_type_check\(.*\) == 0;/;/'
changed 'another stored value, fitted' 'not the values of' fitted examples/floor-direction-name/up.answer 's/value=2 12/value=2 13/'
changed 'a C library that is not there' 'thumbv7em: a warning' cross "$fitted" 's/^#include "table.h"/&\n#include <string.h>/'

changed 'a command that fails' 'its commands fail' readme examples/firmware/README.md 's/^    (tail -n \+4 .*)floor\.listing$/    \1other.listing/'
changed 'a page that says something else' 'its commands print something else' readme examples/firmware/README.md 's/^value 0: Integer 12$/value 0: Integer 13/'
changed 'a page without commands' 'no command' readme examples/firmware/README.md 's/^    //'

# what only a sanitizer sees, where cc has them
fresh
if grep -q 'cc has no address and undefined-behaviour sanitizers' <<<"$(tests/firmware.sh rows)"; then
    echo 'control, firmware: no sanitizers here'
else
    changed 'a read past the message and the literals' 'global-buffer-overflow' fitted "$fitted" 's/^        put_byte\((slice\[.*\])\);/        { const volatile uint8_t *past = \&\1 + 20; (void)*past; put_byte(\1); }/'
    changed 'a write past the message' 'global-buffer-overflow' use "$c" 's/take_file\(text \+ 1, message, sizeof message,/take_file(text + 1, message, sizeof message + 1,/'
    changed 'a write past the listing' 'global-buffer-overflow' array "$array" 's/sizeof listing - came, file/sizeof listing, file/'
    changed 'an overflow' 'runtime error' rows "$c" 's/-\(int32_t\)\(UINT32_MAX - payload\) - 1/-(int32_t)payload/'
fi
