#!/usr/bin/env bash
# Runs the program over every script of examples/ and compares what it writes with the files beside the script:
# NAME.xml for standard output, NAME.refusals for standard error, NAME.trace for the trace.
# The program is the one that `rt run` builds in crates/sheet_feed, or the first argument.
set -u
program=$(realpath "${1:-$(dirname "$0")/../crates/sheet_feed/out/sheet_feed}")
cd "$(dirname "$0")/../examples" || exit 2
work=$(mktemp -d) || exit 2
trap 'rm -rf "$work"' EXIT
passed=0
failed=0

# what it is, and a command that tells
check() {
    if "${@:2}"; then
        passed=$((passed + 1))
    else
        failed=$((failed + 1))
        echo "differs: $1"
    fi
}

for script in *.sheet; do
    name=${script%.sheet}
    # Only an error of the script has another line on standard error than those of refusals, and exit status 1.
    grep -v ': refusal ' "$name.refusals" >"$work/error"
    wanted=0
    [ -s "$work/error" ] && wanted=1

    "$program" "$script" >"$work/out" 2>"$work/err"
    check "$name, exit status" test $? = $wanted
    check "$name.xml" cmp -s "$work/out" "$name.xml"
    check "$name.refusals" cmp -s "$work/err" "$name.refusals"

    "$program" trace <"$script" >"$work/out" 2>"$work/err"
    check "$name, exit status of the trace" test $? = $wanted
    check "$name.trace" cmp -s "$work/out" "$name.trace"
    check "$name, errors of the trace" cmp -s "$work/err" "$work/error"

    # One record in one sink is a document of its own.
    if [ "$(grep -c '^finish$' "$script")" = 1 ] && command -v xmllint >/dev/null; then
        check "$name.xml, as xmllint reads it" xmllint --noout "$name.xml"
    fi
done

# A file that is not there is no error of a script.
"$program" "$work/none" >"$work/out" 2>"$work/err"
check "no file, exit status" test $? = 2
check "no file, output" test ! -s "$work/out"
check "no file, error" test -s "$work/err"
echo "$passed passed, $failed failed"
[ $failed = 0 ]
