#!/usr/bin/env bash
# Runs the program that lists a sheet where something is wrong around it: input without end or none at all, an output
# that cannot be written, and little memory.
#
#   robust.sh PROGRAM
#
# Prints one line for each test, and exits 1 if one failed. Each time the program must either print the whole right
# listing and report success, or print nothing, say why on standard error, and report no success.

set -u

if [ $# -ne 1 ]; then
    echo "usage: robust.sh PROGRAM" >&2
    exit 2
fi
program=$1
if [ ! -x "$program" ]; then
    echo "robust.sh: there is no program $program" >&2
    exit 2
fi

folder=$(mktemp -d) || exit 2
trap 'rm -rf "$folder"' EXIT
output=$folder/output
errors=$folder/errors
failures=0

# pass NAME WHAT, fail NAME WHAT: the line of a test.
pass() { printf 'ok    %-34s %s\n' "$1" "$2"; }
fail() {
    printf 'FAIL  %-34s %s\n' "$1" "$2"
    failures=$((failures + 1))
}

# Sets `found` to what a run came to: listing, refused or wrong.
# judge STATUS EXPECTED
judge() {
    if [ "$1" -eq 0 ] && cmp -s "$output" "$2"; then
        found=listing
    elif [ "$1" -ne 0 ] && [ ! -s "$output" ] && [ -s "$errors" ]; then
        found=refused
    else
        found=wrong
    fi
}

# How a run ended, in words.
ending() {
    echo "status $1, $(wc -c <"$output") bytes on standard output, $(wc -c <"$errors") on standard error"
}

# The test of a run that must print exactly EXPECTED.
# must_list NAME STATUS EXPECTED
must_list() {
    judge "$2" "$3"
    if [ "$found" = listing ]; then
        pass "$1" "prints $(head -n 1 "$3")"
    else
        fail "$1" "$(ending "$2")"
    fi
}

# The test of a run that may print exactly EXPECTED, or refuse.
# may_refuse NAME STATUS EXPECTED
may_refuse() {
    judge "$2" "$3"
    case $found in
    listing) pass "$1" "prints $(head -n 1 "$3")" ;;
    refused) pass "$1" "status $2, $(head -n 1 "$errors")" ;;
    *) fail "$1" "$(ending "$2")" ;;
    esac
}

# The test of a run whose output cannot be written.
# must_fail NAME STATUS
must_fail() {
    if [ "$2" -ne 0 ] && [ -s "$errors" ]; then
        pass "$1" "status $2, $(head -n 1 "$errors")"
    else
        fail "$1" "status $2, $(wc -c <"$errors") bytes on standard error"
    fi
}

# A sheet of 240 calls. Of 239 misses of 30 days each is estimated by the class figure or by the one before, 750 kWh;
# the last call reads 24,000 kWh, which are shared out over all of them.
sheet=$folder/sheet
listing=$folder/listing
{
    printf '1 PREMISE\nE-12 6 0 0 7\n240 CALLS\n'
    for ((call = 1; call < 240; call++)); do
        printf 'M %d\n' $((30 * call))
    done
    printf 'R 7200 24000\n'
} >"$sheet"
{
    printf '240 ANSWERS\n'
    printf 'M 3 7 750\nM 3 7 750\n'
    for ((call = 3; call < 240; call++)); do
        printf 'M 3 1 750\n'
    done
    printf 'R 1 100 239\n240 ENTRIES\n'
    for ((call = 1; call <= 240; call++)); do
        printf '7 %d 30 30 %d 0 %d 100\n' $((30 * call)) $((call < 240 ? 5 : 1)) $((call == 1))
    done
} >"$listing"
too_long=$folder/too_long
empty=$folder/empty
printf 'X S 0 0 9\n' >"$too_long"
printf 'X P 1 0 8\n' >"$empty"

timeout 10 "$program" <"$sheet" >"$output" 2>"$errors"
must_list "a sheet of 240 calls" $? "$listing"

timeout 10 "$program" </dev/null >"$output" 2>"$errors"
must_list "empty input" $? "$empty"

# The writer of an endless input ends by a broken pipe as soon as the program ends.
yes | timeout 10 "$program" >"$output" 2>"$errors"
must_list "endless lines" "${PIPESTATUS[1]}" "$too_long"

timeout 10 "$program" </dev/zero >"$output" 2>"$errors"
must_list "endless zeros" $? "$too_long"

timeout 10 "$program" </dev/urandom >"$output" 2>"$errors"
must_list "endless noise" $? "$too_long"

{
    head -c 100 "$sheet"
    sleep 0.2
    tail -c +101 "$sheet"
} | timeout 10 "$program" >"$output" 2>"$errors"
must_list "a sheet in two pieces" "${PIPESTATUS[1]}" "$listing"

timeout 10 "$program" <&- >"$output" 2>"$errors"
may_refuse "standard input closed" $? "$empty"

timeout 10 "$program" <"$folder" >"$output" 2>"$errors"
judge $? /dev/null
if [ "$found" = refused ]; then
    pass "a folder as input" "$(head -n 1 "$errors")"
else
    fail "a folder as input" "$(wc -c <"$output") bytes on standard output"
fi

timeout 10 "$program" <"$sheet" >/dev/full 2>"$errors"
must_fail "standard output full" $?

timeout 10 "$program" </dev/zero >/dev/full 2>"$errors"
must_fail "full, and one line to print" $?

timeout 10 "$program" <"$sheet" 2>"$errors" >&-
must_fail "standard output closed" $?

# Nobody reads: the program is ended by the broken pipe, or is told of it.
(trap '' PIPE; timeout 10 "$program" <"$sheet" 2>"$errors"; echo $? >"$folder/status") | true
must_fail "nobody reads the output" "$(cat "$folder/status")"

timeout 10 "$program" <"$sheet" >"$output" 2>/dev/full
judge $? "$listing"
if [ "$found" = listing ]; then
    pass "standard error full" "prints $(head -n 1 "$listing")"
else
    fail "standard error full" "$(wc -c <"$output") bytes on standard output"
fi

# Runs the sheet in memory of so many KiB, and counts what it comes to. Where there is not enough to load the program,
# the loader ends with 126 or 127, or by a signal; that is no fault of the program, which has not started yet.
# run_in KILOBYTES
run_in() {
    # The braces keep the shell's own words about signals away.
    {
        (ulimit -v "$1" && exec "$program" <"$sheet") >"$output" 2>"$errors"
        status=$?
    } 2>/dev/null
    judge "$status" "$listing"
    if [ "$found" = listing ]; then
        listed=$((listed + 1))
        least=${least:-$1}
        started=yes
    elif [ ! -s "$output" ] && { [ "$status" -eq 126 ] || [ "$status" -eq 127 ]; }; then
        not_loaded=$((not_loaded + 1))
    elif [ ! -s "$output" ] && [ ! -s "$errors" ] && [ "$status" -gt 128 ] && [ "$started" = no ]; then
        not_loaded=$((not_loaded + 1))
    elif [ "$found" = refused ]; then
        refused=$((refused + 1))
        said=$(head -n 1 "$errors")
        started=yes
    else
        fail "memory of $1 KiB" "$(ending "$status")"
    fi
}

# run_steps NAME FIRST LAST STEP
run_steps() {
    listed=0 refused=0 not_loaded=0 least='' said='' started=no
    for ((kilobytes = $2; kilobytes <= $3; kilobytes += $4)); do
        run_in "$kilobytes"
    done
    local summary="$listed listed (from ${least:-no} KiB on), $refused refused, $not_loaded not loaded"
    if [ "$listed" -gt 0 ]; then
        pass "$1" "$summary"
    else
        fail "$1" "$summary"
    fi
    [ -z "$said" ] || printf '      %-34s %s\n' "" "refused with: $said"
}

# From too little to enough, and then page by page where the one becomes the other.
run_steps "memory of 64 to 16384 KiB" 64 16384 64
if [ -n "$least" ]; then
    first=$((least > 576 ? least - 512 : 64))
    run_steps "memory of $first to $((least + 64)) KiB" "$first" $((least + 64)) 4
fi

if [ "$failures" -gt 0 ]; then
    echo "$failures failed"
    exit 1
fi
echo "all good"
