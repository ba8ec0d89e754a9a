# shellcheck shell=bash
# The commands in a copy, on what is proved and built here: so cargo has nothing to do there, and a stand-in for it does nothing.
mkdir "$room/bin"
ln -s "$(type -P true)" "$room/bin/cargo"
export READER_LIBRARY=${READER_LIBRARY:?} PATH=$room/bin:$PATH

fresh() {
    copy run check desk/*.sh tests/commands tests/console examples
    ln -s "$top/crates" "$top/crates.txt" "$top/target" .
    ln -s "$top/desk/target" desk/target
}

fresh
passes 'the commands' tests/commands.sh answers unreadable unwritable unready progress uses head_hints
fails 'a part that tries nothing' 'true: nothing was tried' tests/commands.sh true
change run 's/^exit 1$/exit 0/'
fails './run that ends with 0 for every answer' 'it ended with 0, not with 1' tests/commands.sh answers
fresh
change desk/streams.sh 's/cat "\$1" 2/head -n 7 "$1" 2/'
fails 'a line less of the answer' 'standard output is not examples/' tests/commands.sh answers
fresh
change examples/case-a/case-a.answer 's/visits=2/visits=3/'
fails 'another stored answer' 'standard output is not examples/case-a/case-a.answer' tests/commands.sh answers
fresh
change run 's/^answer=20\).*/answer=8) echo no match >\&2 ;;/'
fails 'a hint where no line is wrong' 'something is on standard error' tests/commands.sh answers
fails 'no hint' 'an unknown mode: the hint is not one or two lines of line 1' tests/commands.sh head_hints
fresh
change desk/place.sh 's/line\[node\] = NR$/line[node] = NR - 1/'
fails 'the place, a line before' 'standard error does not say: node ' tests/commands.sh answers
fresh
change desk/place.sh 's/for \(top = at;.*continue/top = at/'
fails 'the place, of no rule' 'standard error does not say: node 54 (line 65), sequence, in rule 2' tests/commands.sh answers
fresh
change run 's/readlink -f "\$0"/echo "$0"/'
fails 'a command that knows no link' 'run, by a link: ' tests/commands.sh answers
fresh
change desk/streams.sh '/\$1. is a directory/d'
fails 'a directory that is not told' "does not say: run: 'examples' is a directory" tests/commands.sh unreadable
fresh
change desk/streams.sh 's/\|\| stop ".* cannot be read: .*/|| true/'
fails 'a read error that is not told' 'a file whose reading fails: it ended with 1, not with 2' tests/commands.sh unreadable
fresh
change desk/streams.sh 's/\|\| stop "\$2 could not be written"/|| true/'
fails 'an answer that is lost' 'run, standard output is full: it ended with 0, not with 2' tests/commands.sh unwritable
fresh
change tests/kit.sh '/is not on the path/d'
fails 'a kit that is not missed' 'run without rt: ' tests/commands.sh unready
fresh
change check '/is not on the path/d'
fails 'cargo that is not missed' 'check without cargo: ' tests/commands.sh unready
fresh
change tests/prove.sh 's/tell "proved: .*/true/'
fails 'no progress' 'does not say: proved: 1 of 18, laws (' tests/commands.sh progress
fresh
change tests/prove.sh 's/\[ "\$checked" = 0 \] \|\| //'
fails 'progress of crates that were proved before' 'a crate is told that was proved before' tests/commands.sh progress
fresh
change tests/prove.sh 's/\[ -n "\$\{READER_QUIET:-\}" \] \|\| //'
fails 'progress in the gate' 'in the gate: something is on standard error' tests/commands.sh progress
fresh
change tests/prove.sh 's/^( *)if awk .*; then exit; fi$/\1exit/'
fails 'an rt that says nothing is believed' 'an rt that says nothing: it ended with 0, not with 2' tests/commands.sh progress
fresh
change run 's/ \|\| \[ -s "\$room\/said" \]//'
fails 'a program that says it could not write is believed' 'could not write: it ended with 0, not with 2' tests/commands.sh progress
fresh
change tests/commands/whole.listing '4s/=8/=7/'
fails 'a listing that is refused' "whole.listing: it ended with 1, not with 0" tests/commands.sh verdicts
fresh
change check 's/^cat "\$room\/advice".*//'
fails 'no advice' 'standard error does not say: node 6 (line 12), terminal' tests/commands.sh uses
fresh
rm desk/target
mkdir -p desk/target/release
printf '#!/bin/sh\necho passed\n' >desk/target/release/check
chmod +x desk/target/release/check
fails 'a verdict that passes all' 'it ended with 0, not with 1' tests/commands.sh uses
printf '#!/bin/sh\necho "3 USE, place 6"\nexit 1\n' >desk/target/release/check
fails 'a verdict that refuses all' 'it ended with 1, not with 0' tests/commands.sh verdicts
fresh
change desk/line.sh 's/function say\(text\) \{/function say(text) { return/'
fails 'hints that say nothing' 'an unknown mode: the hint is not one or two lines of line 1' tests/commands.sh head_hints
fresh
change desk/line.sh 's/said\+\+ < 2/said++ < 9/; s/if \(!ended\)/say("more"); say("more"); if (!ended)/'
fails 'too many hints' 'the hint is not one or two lines' tests/commands.sh head_hints
# each hint by itself: without its condition another text comes, or none
hint_lost() { # PART NAME CHANGE
    fresh
    change desk/line.sh "$3"
    fails "no hint of $2" 'standard error does not say' tests/commands.sh "$1"
}
hint_lost hex_hints 'upper-case hex' 's/if \(upper\) say/if (0) say/'
hint_lost hex_hints 'an odd number of digits' 's/if \(digits % 2\) say/if (0) say/'
hint_lost number_hints 'a leading zero' 's/has a leading zero/is wrong/'
hint_lost number_hints 'two spaces' 's/two spaces stand/something stands/'
hint_lost line_hints 'a carriage return' 's/b\[n\] == 13/b[n] == 14/'
hint_lost line_hints 'a space at the end' 's/stands at its end/is there/'
hint_lost line_hints 'a missing line end' 's/if \(!ended\) say/if (0) say/'
hint_lost file_hints 'a byte order mark' 's/start\[1\] == 239/start[1] == 238/'
