#!/usr/bin/env bash
# Runs the gate script over the example schemas, and compares its lines and statuses with what these changes are to give.
#
#   JSAT=crates/jsat/out/jsat tests/gate/run.sh
#
# Silent and status 0 where all is as expected.
set -u
cd "$(dirname "$0")/../.." || exit 2
JSAT=$(realpath "${JSAT:-crates/jsat/out/jsat}")
export JSAT
gate=examples/gate/gate.sh
work=$(mktemp -d) || exit 2
trap 'rm -rf "$work"' EXIT
mkdir "$work/old" "$work/compatible" "$work/incompatible"
for name in events expressions manifest service; do
    cp "examples/$name/before.json" "$work/old/$name.json"
    cp "examples/$name/compatible.json" "$work/compatible/$name.json"
    cp "examples/$name/incompatible.json" "$work/incompatible/$name.json"
done
echo '{"type": "stri' >"$work/old/broken.json"
cp "$work/old/broken.json" "$work/compatible/broken.json"
echo true >"$work/compatible/new one.json"
status=0

# The first two or three words of each line are expected, and the status.
expect() {
    local wanted_status=$1 wanted=$2
    shift 2
    local lines
    lines=$(bash "$gate" -c "$work/stored" "$@")
    local found=$?
    lines=$(printf '%s\n' "$lines" | sed -E 's/^((pass|breaks|open) [^ ]+ [^ ]+).*/\1/')
    if [ "$found" -ne "$wanted_status" ] || [ "$lines" != "$wanted" ]; then
        printf 'gate.sh %s: status %s for %s\n%s\n' "$*" "$found" "$wanted_status" "$lines"
        status=1
    fi
}

expect 3 "open broken.json backward
pass events.json backward
pass expressions.json backward
pass manifest.json backward
pass service.json backward
added new one.json" -j 2 backward "$work/old" "$work/compatible"
rm "$work/old/broken.json" "$work/compatible/broken.json"
expect 1 "breaks events.json forward
breaks expressions.json forward
breaks manifest.json forward
breaks service.json forward
added new one.json" forward "$work/old" "$work/compatible"
expect 1 "breaks events.json backward
pass events.json forward
breaks expressions.json backward
pass expressions.json forward
breaks manifest.json backward
pass manifest.json forward
breaks service.json backward
pass service.json forward" full "$work/old" "$work/incompatible"
expect 1 "breaks events.json backward
breaks expressions.json backward
breaks manifest.json backward
breaks service.json backward
removed new one.json" backward "$work/compatible" "$work/old"
expect 2 "" sideways "$work/old" "$work/compatible" 2>"$work/usage"
mkdir "$work/nothing" "$work/one"
expect 2 "" backward "$work/nothing" "$work/nothing" 2>"$work/usage"
echo true >"$work/one/a.json"
# What can't be stored, and a program that can't be started, are no pass.
expect 3 "open a.json backward" -c /dev/null/none backward "$work/one" "$work/one" 2>"$work/errors"
JSAT=/dev/null/none expect 3 "open a.json backward" backward "$work/one" "$work/one" 2>"$work/errors"
# Hidden names, names that differ in a sign of folders, and links count.
mkdir -p "$work/before/a" "$work/after/a" "$work/elsewhere"
echo '{"minimum": 0}' | tee "$work/before/.hidden.json" "$work/before/a:b.json" "$work/before/a/b.json" >"$work/before/link.json"
echo '{"minimum": 1}' | tee "$work/after/.hidden.json" "$work/after/a/b.json" >"$work/elsewhere/link.json"
cp "$work/before/a:b.json" "$work/after/a:b.json"
ln -s "$work/elsewhere/link.json" "$work/after/link.json"
expect 1 "breaks .hidden.json backward
breaks a/b.json backward
pass a:b.json backward
breaks link.json backward" -j 1 backward "$work/before" "$work/after"
# A link that leads nowhere, an empty old folder, and no place for results are no pass.
ln -sf "$work/elsewhere/none.json" "$work/after/link.json"
rm -r "$work/after/.hidden.json" "$work/after/a"
rm -r "$work/before/.hidden.json" "$work/before/a"
expect 3 "pass a:b.json backward
open link.json backward" backward "$work/before" "$work/after" 2>"$work/errors"
expect 2 "" backward "$work/nothing" "$work/after" 2>"$work/errors"
TMPDIR=$work/none expect 3 "" backward "$work/one" "$work/one" 2>"$work/errors"
# Of an earlier comparison nothing is left.
expect 0 "pass a.json backward" -c "$work/kept" backward "$work/one" "$work/one"
echo false >"$work/nothing/a.json"
expect 1 "breaks a.json backward" -c "$work/kept" backward "$work/one" "$work/nothing"
if [ -e "$work/kept/a.backward.certificate" ]; then
    echo "a certificate of an earlier comparison is left"
    status=1
fi
exit $status
