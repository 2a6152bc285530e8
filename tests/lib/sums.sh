# shellcheck shell=sh disable=SC2034
# What ./verify, tests/check_all and other runners in shell share: to run a part, to add up what it counted, and the last line.
#
# A part ends with status 0 and a last line `NAME: N passed, M failed`; the name may be left out.

passed=0
failed=0
begun_parts=

# Runs a part, and adds its sums. Its output is shown and kept in a file.
#
#     run_part FILE COMMAND ..     sets well, wrong and seconds; FILE.ended is there once it has ended
run_part() {
    said=$1
    shift
    begun=$(date +%s)
    rm -f "$said.well"
    { "$@" && : >"$said.well"; } 2>&1 | tee "$said"
    seconds=$(($(date +%s) - begun))
    add_part "$said" "$1"
}

# Begins a part that runs beside those that follow, of which others may be begun likewise. Its output is kept in a file, and shown once it is
# waited for.
#
#     begin_part FILE COMMAND ..
#     end_part FILE COMMAND ..     sets well, wrong and seconds
#     stop_parts                   ends those that still run
begin_part() {
    rm -f "$1.well"
    {
        beside=$1
        shift
        trap 'kill "$running"; exit 1' TERM
        begun=$(date +%s)
        "$@" >"$beside" 2>&1 &
        running=$!
        wait "$running" && : >"$beside.well"
        echo $(($(date +%s) - begun)) >"$beside.seconds"
    } &
    begun_parts="$begun_parts $!"
    echo "$!" >"$1.begun"
}

end_part() {
    begun_part=$(cat "$1.begun")
    wait "$begun_part"
    begun_parts=$(echo "$begun_parts " | sed "s/ $begun_part / /; s/ *$//")
    cat "$1"
    seconds=$(cat "$1.seconds")
    rm -f "$1.seconds" "$1.begun"
    add_part "$@"
}

stop_parts() {
    # shellcheck disable=SC2086 # (numbers of processes)
    [ -z "$begun_parts" ] || kill $begun_parts 2>/dev/null
}

# Adds what a part counted by its last line, which stands in a file.
add_part() {
    sums=$(tail -n 1 "$1" | sed -n 's/^\(.*: \)\{0,1\}\([0-9][0-9]*\) passed, \([0-9][0-9]*\) failed$/\2 \3/p')
    well=${sums% *}
    wrong=${sums#* }
    # a part that fails without a count, or beside a count of none, is one failure
    if [ -z "$sums" ]; then
        echo "$2: no count of what passed"
        well=0 wrong=1
    elif [ ! -e "$1.well" ] && [ "$wrong" -eq 0 ]; then
        echo "$2: it failed, and counted no failure"
        wrong=1
    fi
    rm -f "$1.well"
    passed=$((passed + well))
    failed=$((failed + wrong))
}

# Prints the last line, under a name where one is given. Its status is that of the runner.
last_line() {
    echo "${1:+$1: }$passed passed, $failed failed"
    [ "$failed" -eq 0 ] && [ "$passed" -gt 0 ]
}
