#!/bin/sh
# Words that aren't UTF-8 name no job: the status is 3, its line stands on err, and nothing on out.
# Runs bin/xmldsig; ends with 0 where all is as it should be.
program=$(cd "$(dirname "$0")/.." && pwd)/bin/xmldsig
dir=$(mktemp -d) || exit 1
word=$(printf 'd\377.xml')
"$program" validate "$word" --keys k.txt >"$dir/out" 2>"$dir/err"
status=$?
echo 'usage: xmldsig validate|sign|canon|template|selftest' >"$dir/expected"
end=0
[ "$status" -eq 3 ] || { echo "status $status in place of 3"; end=1; }
cmp -s "$dir/err" "$dir/expected" || { echo "another text on err"; end=1; }
[ -s "$dir/out" ] && { echo "a text on out"; end=1; }
rm -r "$dir"
exit $end
