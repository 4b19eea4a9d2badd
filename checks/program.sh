#!/usr/bin/env bash
# The program as a newcomer starts it: the examples, the help and the version, words that are no form, a script that is
# not understood, and one that is too long. Each must print what stands here and end with its status. Then each script of
# checks/cases: it must print the report beside it, byte for byte, and end with the status beside it, or with 0. Last what is
# said on standard error: nothing by the launcher where the program is built, by the program why it cannot listen, and by the
# launcher that only a built program can.
set -u
top=$(cd "$(dirname "${BASH_SOURCE[0]}")/.." && pwd)
passed=0
failed=0

# What is shown, the status and the text that are wanted, the input, and the words.
check() {
    local shown=$1 status=$2 wanted=$3 input=$4 got ended=0
    shift 4
    got=$("$top/dongurapi" "$@" < "$input" 2> /dev/null) || ended=$?
    if [ "$ended" = "$status" ] && [ "$got" = "$wanted" ]; then
        passed=$((passed + 1))
    else
        failed=$((failed + 1))
        printf 'failed: %s: status %s, %s\n' "$shown" "$ended" "$got"
    fi
}

"$top/dongurapi" --version > /dev/null || exit 1
whole=$(cat "$top/crates/dongurapi/stdout")
check "a browser's GET" 0 "$whole" "$top/examples/one-get.script" replay
check "a GET in pieces" 0 "$whole" "$top/examples/browser.script" replay
check "two GETs" 0 "$(cat "$top/examples/two-gets.report")" "$top/examples/two-gets.script" replay
check "a POST in chunks" 0 "$(cat "$top/examples/post-in-chunks.report")" "$top/examples/post-in-chunks.script" replay
check "a pipeline, byte by byte" 0 "$(cat "$top/examples/pipeline.report")" "$top/examples/pipeline.script" replay
check "an allowed origin" 0 "$(cat "$top/examples/allowed-origin.report")" "$top/examples/allowed-origin.script" replay
check "a preflight" 0 "$(cat "$top/examples/preflight.report")" "$top/examples/preflight.script" replay
check "a refused policy" 4 'startup refused: `allowed_origin` argument must not be wildcard (`*`)' "$top/examples/refused-policy.script" replay
check "the version" 0 "dongurapi 0.1.0" /dev/null --version
check "words that are no form" 2 "usage: replay | listen ADDR N | generate N K" /dev/null replay now
check "an address that is none" 9 "cannot listen" /dev/null listen nowhere 1
check "no connection to wait for" 2 "usage: replay | listen ADDR N | generate N K" /dev/null listen 127.0.0.1:0 0
check "connections that are made" 0 "$(printf 'connections 1\nrequests 3\nserved 1\nanswer-bytes 614\nend drained')" /dev/null generate 1 1
check "others, from another seed" 0 "$(printf 'connections 1\nrequests 1\nserved 1\nanswer-bytes 257\nend drained')" /dev/null generate 1 2
check "no connections" 2 "usage: replay | listen ADDR N | generate N K" /dev/null generate 0 1
check "a number with a zero before it" 2 "usage: replay | listen ADDR N | generate N K" /dev/null listen 127.0.0.1:80 01
check "no words" 2 "usage: replay | listen ADDR N | generate N K" /dev/null
check "an empty script" 4 "startup refused: no listener" /dev/null replay
check "no script" 3 "script line 3 is not understood" "$top/README.md" replay
work=$(mktemp -d)
trap 'rm -rf "$work"' EXIT
head -c 16777217 /dev/zero | tr '\0' '#' > "$work/long.script"
check "a script that is too long" 3 "script is longer than 16777216 bytes" "$work/long.script" replay
case $("$top/dongurapi" --help) in
    *"usage: dongurapi replay"*"dongurapi listen ADDR N"*"dongurapi generate N K"*"9 the address was refused") passed=$((passed + 1)) ;;
    *) failed=$((failed + 1)) && echo "failed: the help" ;;
esac
# Ten thousand connections, twice: the same bytes.
"$top/dongurapi" generate 10000 7 > "$work/first" 2> /dev/null
if [ "$(head -n 1 "$work/first")" = "connections 10000" ] && [ "$(sed -n 3p "$work/first")" = "served 10000" ] \
    && "$top/dongurapi" generate 10000 7 2> /dev/null | cmp -s - "$work/first"; then
    passed=$((passed + 1))
else
    failed=$((failed + 1))
    printf 'failed: ten thousand connections, twice: %s\n' "$(cat "$work/first")"
fi

for script in "$top"/checks/cases/*.script; do
    case=${script%.script}
    wanted=0
    [ ! -e "$case.status" ] || wanted=$(cat "$case.status")
    ended=0
    "$top/dongurapi" replay < "$script" > "$work/report" 2> /dev/null || ended=$?
    if [ "$ended" = "$wanted" ] && cmp -s "$work/report" "$case.report"; then
        passed=$((passed + 1))
    else
        failed=$((failed + 1))
        printf 'failed: %s: status %s, %s\n' "$(basename "$case")" "$ended" "$(head -c 2000 "$work/report")"
    fi
done
# What is said on standard error.
mkdir -p "$work/bare/crates/dongurapi/src" "$work/bare/checks"
cp "$top/dongurapi" "$top/crates.txt" "$work/bare"
cp "$top/checks/sources.sh" "$work/bare/checks"
built=$("$top/dongurapi" --version 2>&1 > /dev/null)
reason=$("$top/dongurapi" listen nowhere 1 2>&1 > /dev/null)
bare=$("$work/bare/dongurapi" listen 127.0.0.1:0 1 2>&1)
if [ -z "$built" ] && [ "$reason" = "dongurapi: cannot listen at nowhere: not an address" ] \
    && [ "$bare" = "dongurapi: not built, and what is not built can't wait for connections; './dongurapi build' proves and builds the program" ]; then
    passed=$((passed + 1))
else
    failed=$((failed + 1))
    printf 'failed: the launcher: %s; %s; %s\n' "$built" "$reason" "$bare"
fi
echo "$passed passed, $failed failed"
[ "$failed" = 0 ]
