# shellcheck shell=bash
export READER_CONSOLE=${READER_CONSOLE:?}
page=$room/page.md

# A page with a block of each sort.
fresh() {
    cat >"$page" <<'PAGE'
```console
mode=display
budget=2
message=4731
rules=1
nodes=3
literals=
rule=1 0 0 0 0 0 1 2 0 0 0 3 0 0 0
node=2 71 0 0 0 0 0 0 0 0
node=8 0 0 0 0 0 0 0 0 0
node=19 0 0 0 0 0 0 0 0 0
```
```answer
answer=0
place=0
consumed=1
visits=2
value=3 47
value=0
value=0
value=0
```
```listing small
rules=1
nodes=3
literals=
rule=1 0 0 0 0 0 1 2 0 0 0 3 0 0 0
node=2 71 0 0 0 0 0 0 0 0
node=8 0 0 0 0 0 0 0 0 0
node=19 0 0 0 0 0 0 0 0 0
```
```tried
display 1000 "GG"          answer=0 place=0 consumed=1 visits=2 value=3 47
display 1000 2 times "G"   answer=0 place=0 consumed=1 visits=2 value=3 47
line 5: node=2 70 0 0 0 0 0 0 0 0
line 7: node=19 1 0 0 0 0 0 0 0 0    5 TYPE, place 0
bench 1000 "F"             answer=11 place=2 consumed=0 visits=2
line 2: nodes=2                      20 LINE, place 7
```
```tried small
display 1 "G"              answer=9 place=0 consumed=0 visits=1
```
PAGE
}

broken() { # NAME TEXT COMMAND-OF-SED
    fresh
    change "$page" "$3"
    fails "authors, $1" "$2" tests/authors.sh "$page"
}

fresh
passes 'authors, a page with a block of each sort' tests/authors.sh "$page"
broken 'another answer' 'line 13: not this answer' 's/^visits=2$/visits=3/'
broken 'an answer with a line more' 'line 13: not this answer' '20s/$/\nvalue=0/'
broken 'a console input with another message' 'line 13: not this answer' 's/^message=4731$/message=4831/'
broken 'a console input without an answer' 'a console input without an answer' '13,22d'
broken 'a console input without an answer at the end' 'a console input without an answer' '13,$d'
broken 'an answer without a console input' 'an answer without a console input' '1,12d'
broken 'a fence with other words' 'unknown fence: text' 's/^```console$/```text/'
broken 'a fence without words' 'unknown fence' 's/^```console$/```/'
broken 'a listing without a name' 'unknown fence: listing' 's/^```listing small$/```listing/'
broken 'a block that is not closed' 'not closed' '$d'
broken 'an empty block' 'an empty block' '2,11d'
broken 'no block' 'no block' 's/^```.*//'
broken 'a listing that is refused' "it doesn't pass: answer=5" '30s/19 0/19 1/'
broken 'a listing that breaks off' "it doesn't pass: answer=20" '30d'
broken 'a second listing of a name' 'a second listing of this name' 's/^```console$/```listing small/; s/^```answer$/```tried/; 2,4d; 14,21d; 13s/$/\ndisplay 0 ""  answer=9 place=1 consumed=0 visits=0/'
broken 'another verdict' 'not 5 TYPE, place 1: answer=5 place=0' 's/TYPE, place 0/TYPE, place 1/'
broken 'another line' 'not 20 LINE, place 6: answer=20 place=10' 's/LINE, place 7/LINE, place 6/'
broken 'another name of a verdict' 'no such verdict: 5 FIELD' 's/5 TYPE/5 FIELD/'
broken 'a wrong table that is said to pass' "it doesn't pass: answer=5" 's/5 TYPE, place 0/passed/'
broken 'a right table that is said to be refused' 'not 5 TYPE, place 0: answer=9' '/^line 5/d; s/^line 7:.*/line 5: node=2 70 0 0 0 0 0 0 0 0  5 TYPE, place 0/'
broken 'a change without a verdict' 'no verdict: line 7' 's/ +5 TYPE, place 0//'
broken 'a change without a verdict at the end' 'no verdict: line 2' 's/ +20 LINE, place 7//'
broken 'a change that changes nothing' 'it changes nothing: line 5' 's/^line 5: node=2 70/line 5: node=2 71/'
broken 'a change of a line that is not there' 'it changes nothing: line 8' 's/^line 5:/line 8:/'
broken 'a run with another answer' 'display 1000 "GG": not as said' '/"GG"/s/visits=2/visits=1/'
broken 'a run with a value less' 'display 1000 "GG": not as said' '/"GG"/s/ value=3 47//'
broken 'a run of another message' 'not as said: answer=8' 's/2 times "G"/2 times "F"/'
broken 'a run of the changed table' 'bench 1000 "G": not as said' 's/^bench 1000 "F"/bench 1000 "G"/'
broken 'a run of the named listing' 'display 1 "F": not as said' 's/^display 1 "G" +answer=9 place=0/display 1 "F" answer=9 place=1/'
broken 'a line that is no run' 'neither a run nor a changed line' 's/^bench 1000/beach 1000/'
broken 'a name that no listing has' 'no listing before it: large' 's/^```tried small$/```tried large/'
broken 'nothing before what is tried' 'no listing before it' '1,31d'
fails 'authors, no page' 'no such page' tests/authors.sh "$room/not-there.md"
fresh
READER_CONSOLE=true fails 'authors, a program that prints nothing' 'not this answer' tests/authors.sh "$page"
READER_CONSOLE=false fails 'authors, a program that fails' 'ended with 1' tests/authors.sh "$page"

# The page itself.
copy docs/AUTHORS.md
passes 'authors, the page as it stands' tests/authors.sh
change docs/AUTHORS.md 's/consumed=62 visits=378/consumed=62 visits=377/'
fails 'authors, the page with another number of visits' 'visits=378' tests/authors.sh
