# shellcheck shell=bash
log=$room/own

passes 'own tests as they ran' tests/own.sh --judge "$top/tests/target/own.log"
cp tests/target/own.log "$log"
change "$log" '0,/ok\. [1-9][0-9]* passed/s//ok. 0 passed/'
fails 'own tests that did not run' 'have passed' tests/own.sh --judge "$log"
fails 'own tests of a folder, with fewer than are written' 'own tests of desk: 0 of' tests/own.sh --judge <(grep -v '^test result' "$log") desk
: >"$log"
fails 'no own test' 'own tests of tests: 0 of' tests/own.sh --judge "$log"
