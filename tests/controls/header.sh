# shellcheck shell=bash
header=docs/styrmflo.h

changed() { # NAME TEXT SED-COMMAND
    copy crates/exports docs
    change "$header" "$3"
    fails "header, $1" "$2" tests/header.sh
}

copy crates/exports docs
passes 'header as it is' tests/header.sh
changed 'a parameter of another type' 'not what is exported' '0,/uint32_t budget/s//uint16_t budget/'
changed 'a parameter that may be written' 'not what is exported' '0,/const uint8_t \*literals/s//uint8_t *literals/'
changed 'a result of another type' 'not what is exported' 's/^uint64_t styrmflo_text/uint32_t styrmflo_text/'
changed 'a parameter less' 'not what is exported' 's/, uint32_t payload\)/)/'
changed 'no declaration' 'styrmflo_text is exported and not declared' '/^uint64_t styrmflo_text/d'
changed 'a declaration too many' 'styrmflo_more is declared and not exported' 's/^uint64_t styrmflo_text/uint64_t styrmflo_more(void);\n&/'
changed 'a count of 32 bits where a pointer has 32' 'not what is exported, armv7' 's/uint64_t work_count/__SIZE_TYPE__ work_count/'
changed 'no C++' 'not what is exported, C++' 's/^extern "C" \{|^\}$//'
changed 'no C' 'not what is exported' 's/#include <stdint.h>//'
changed 'empty' 'is exported and not declared' d
copy crates/exports docs
change crates/exports/src/lib.rt '0,/budget: u32/s//budget: i32/'
fails 'header, an exported type that has no row' 'not what is exported' tests/header.sh
copy crates/exports docs
change crates/exports/src/lib.rt 's/^pub extern "C" fn /pub fn /'
fails 'header, nothing exported' 'no function is exported' tests/header.sh
