#!/bin/sh
# No call that a host can make has a `requires`: prints each `pub fn` that has one, and fails. The crates are those that README's
# paragraph "From Rattle:" names in backquotes, and phachunoi. A `pub(crate) fn` is no host's.
cd "$(dirname "$0")/.." || exit 2
named=$(awk -F'`' '/^From Rattle:/ { on = 1 } on && /^$/ { exit } on { for (i = 2; i <= NF; i += 2) print $i }' README.md | sed 's/::.*//' | sort -u)
[ -n "$named" ] || { echo "README.md: no paragraph 'From Rattle:' that names the crates for hosts"; exit 1; }
bad=0
for crate in $named phachunoi; do
    [ -d "crates/$crate/src" ] || { echo "README.md names $crate for hosts, and there is no crates/$crate/src"; bad=1; continue; }
    # From `pub fn` on, up to the body: a `{` alone on its line, or at the end of one that states no contract.
    find "crates/$crate/src" -name '*.rt' | sort | xargs awk '
        { line = $0; sub(/\/\/.*/, "", line) }
        line ~ /^[ \t]*pub ([a-z]+ ("C" )?)?fn / { name = line; sub(/.*fn /, "", name); sub(/[^A-Za-z0-9_].*/, "", name) }
        name != "" && line ~ /^[ \t]*requires([ \t{]|$)/ {
            print FILENAME ":" FNR ": a host can call " name ", and it has a `requires`: test it in the code, or make it pub(crate)"
            found = 1
        }
        line ~ /^[ \t]*\{[ \t]*$/ || (line ~ /\{[ \t]*$/ && line !~ /requires|ensures/) { name = "" }
        END { exit found }' || bad=1
done
exit $bad
