# shellcheck shell=bash
folder=$room/console
export READER_CONSOLE=${READER_CONSOLE:?}

fresh() {
    rm -rf "$folder"
    mkdir "$folder"
    cp tests/console/done-* "$folder"
}

fresh
passes 'console inputs with their answers' tests/console.sh "$folder"
change "$folder/done-display.answer" 's/visits=2/visits=3/'
fails 'another stored answer' 'done-display: not the stored answer' tests/console.sh "$folder"
: >"$folder/done-display.answer"
fails 'an empty stored answer' 'no stored answer' tests/console.sh "$folder"
rm "$folder/done-display.answer"
fails 'an input without an answer' 'no stored answer' tests/console.sh "$folder"
fresh
rm "$folder/done-display.console"
fails 'an answer without an input' 'no input' tests/console.sh "$folder"
rm "$folder"/*
fails 'no console input' 'no input' tests/console.sh "$folder"
READER_CONSOLE=$(printf '%s\n' bash -c 'exec "$@" 2>/dev/null' silent "$READER_CONSOLE")
fails 'a program that loses its answer and says nothing' 'standard output lost (>/dev/full): not told' tests/console.sh
fresh
READER_CONSOLE=true
fails 'a program that prints nothing' 'not the stored answer' tests/console.sh "$folder"
fails 'a program that prints nothing, compared' 'they differ' tests/target/release/console_comparison
READER_CONSOLE=$(tests/start.sh "$folder/not-there")
fails 'a program that is not there' 'ended with' tests/console.sh "$folder"
READER_CONSOLE=false
fails 'a program that fails' 'ended with 1' tests/console.sh "$folder"
fails 'a comparison of no input' 'never reached' tests/target/release/console_comparison 0
