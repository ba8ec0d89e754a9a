# shellcheck shell=bash
# The gate itself. It runs every script, or one that runs it, and every control.
runs() { # SCRIPT
    grep -qE "^[^#]*(tests|\\\$here)/$1" test run check library tests/*.sh
}

for script in tests/*.sh; do
    passes "$script is run" runs "$(basename "$script")"
done
fails 'a script that nothing runs' '' runs nothing.sh
for control in tests/controls/*.sh; do
    passes "$control is run" grep -qE "^[^#]*tests/controls\\.sh .*\\b$(basename "$control" .sh)\\b" test
done

# And it fails wherever one of its commands does: here each of them only says how it was called, and one after the other fails.
copy test .ci/run
mkdir -p kit bench target
cat >kit/rt <<'END'
#!/bin/sh
call=${0##*/}
for word in "$@"; do case $word in /*) ;; *) call="$call $word" ;; esac; done
echo "$call" >>"$CALLS"
[ "$call" != "$FAILING" ] || { echo "$call fails" >&2; exit 1; }
echo "$call"
END
chmod +x kit/rt
cp kit/rt kit/cargo
for script in tests/*.sh; do cp kit/rt "$script"; done
export CALLS=$room/calls FAILING='' PATH=$PWD/kit:$PATH

ends_with_the_verdict() {
    [ "$(.ci/run | tail -n 1)" = verdict.sh ]
}

passes 'the gate where all of it passes' ends_with_the_verdict
for call in 'rt ci' kept.sh promises.sh meaning.sh header.sh must_fail.sh wrong_definitions.sh own.sh stack.sh console.sh authors.sh 'own.sh desk' commands.sh vectors.sh firmware.sh targets.sh; do passes "the gate calls $call" grep -qx "$call" "$CALLS"; done
for program in agree library_comparison shipped_comparison console_comparison deep_console "deep_tables ../target/stack/$(uname -m).bytes"; do
    passes "the gate runs $program" grep -qE "^cargo run .*--bin $program\$" "$CALLS"
done
mapfile -t calls < <(sort -u "$CALLS")
for FAILING in "${calls[@]}"; do fails "the gate where this fails: $FAILING" "$FAILING fails" .ci/run; done
