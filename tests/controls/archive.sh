# shellcheck shell=bash
# What is handed over to be run was proved as it stands: where a proof is broken there is nothing, though something stands there from before.
copy crates crates.txt library docs/styrmflo.h
mkdir -p crates/console/out crates/exports/out target/module
touch -d 2000-01-01 crates/console/out/console crates/exports/out/libexports.a target/module/module.bc
echo broken >>crates/laws/specs/Range.antt
for script in archive library module console_command; do
    fails "$script.sh, of a crate that is not proved" 'specs/Range.antt:' "tests/$script.sh"
done

# And where rt says nothing of the crate: such an rt only knows its guide.
mkdir "$room/bin"
printf '#!/bin/sh\n[ "$1" != doc ] || exec "%s" doc\n' "$(type -P rt)" >"$room/bin/rt"
chmod +x "$room/bin/rt"
PATH=$room/bin:$PATH
for script in archive module console_command; do
    fails "$script.sh, with an rt that does nothing" 'says nothing of' "tests/$script.sh"
done
