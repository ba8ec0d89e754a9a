# shellcheck shell=bash
folder=$room/vectors
export READER_LIBRARY=${READER_LIBRARY:?} READER_SHIPPED=${READER_SHIPPED:?}

fresh() {
    rm -rf "$folder"
    mkdir "$folder"
    cp tests/vectors/table.* "$folder"
}

fresh
passes 'a case file with what is stored' tests/vectors.sh "$folder"
: >"$folder/table.cases"
fails 'an empty case file' 'there is no case' tests/vectors.sh "$folder"
: >"$folder/table.stored"
fails 'an empty case file with nothing stored' 'there is no case' tests/vectors.sh "$folder"
fresh
: >"$folder/table.stored"
fails 'nothing stored' 'nothing is stored' tests/vectors.sh "$folder"
fresh
change "$folder/table.stored" '$ s/$/ /'
fails 'a space more is stored' 'stored line' tests/vectors.sh "$folder"
fresh
rm "$folder/table.stored"
fails 'cases without what is stored' 'nothing is stored' tests/vectors.sh "$folder"
fresh
rm "$folder/table.cases"
fails 'what is stored without cases' 'no cases' tests/vectors.sh "$folder"
rm "$folder"/*
fails 'no case file' 'no cases' tests/vectors.sh "$folder"
fails 'a comparison of no case' 'never reached' tests/target/release/library_comparison 0
fails 'contenders compared on no case' 'never reached' bench/target/release/agree 0
