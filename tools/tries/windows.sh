# Tries of runs that are judged window by window. A part of tools/try, which reads it.
# shellcheck shell=bash

# Whether the checker knows journals that end with `cut'.
knows_windows() {
    rm -rf -- "$work/window"
    mkdir -- "$work/window"
    printf 'journal 2 0 1 a-run o a-library\ncut\n' >"$work/window/journal0"
    "${MPIWAIT:-$here/../mpiwait}" judge "$work/window" >/dev/null 2>&1
}

# The report has a line, and so many windows were judged at least.
expect_windows() {
    local name=$1 wanted=$2 least=$3 line=$4 count
    check_journals "$name"
    count=$(sed -n 's/^  \([0-9,]*\) windows\? of .* judged before the last one.*/\1/p' "$work/said")
    count=${count//,/}
    if [[ $status == "$wanted" ]] && ((${count:-0} >= least)) &&
        grep -q -- "$line" "$work/said" "$work/errors"; then
        echo "$name: status $status, ${count:-0} windows"
    else
        cat -- "$work/said" "$work/errors" >&2
        fails "$name: status $status, ${count:-0} windows"
    fi
}

# Free windows are gone at the end, but for the last one.
expect_removed() {
    local left
    left=$(find "$work/run/journal" -mindepth 1 -maxdepth 1 -type d -name '[0-9]*' | wc -l)
    [[ $left == "$2" ]] || fails "$1: $left windows are left"
}

# Where no window ends, the report says why. Each sum would be the end of one.
try_way_without_cut() {
    local library=$1 way=$2 why=$3
    run_with --window 1 "${command[@]}" 100 "$way" 0
    expect_windows "$library: windows.c $way" 0 0 "$why"
}

try_no_cut() {
    local library=$1 way why
    while read -r way why; do
        try_way_without_cut "$library" "$way" "$why"
    done <<'END_OF_WAYS'
under moments without a cut: messages were under way
posted moments without a cut: messages were under way
self moments without a cut: messages were under way
alone moments without a cut: messages were under way
probed moments without a cut: messages were under way
matched moments without a cut: calls failed, aren't recorded
cancelled moments without a cut: calls failed, aren't recorded
file moments without a cut: calls failed, aren't recorded
END_OF_WAYS
    run_with --window 500 "${command[@]}" 200 threads 0
    expect_no_windows "$library: windows.c threads" 'no windows, with MPI_THREAD_MULTIPLE'
}

# There are none, for a reason that the report of a full journal would have.
expect_no_windows() {
    expect_windows "$1" 0 0 'verdict free'
    grep -q -- "$2" "$work/run/journal/left0" || fails "$1: not counted: $2"
    [[ $(journals) != */1 ]] || fails "$1: there are windows"
}

# What a receive from anybody got is asked in a send that waits; its own wait comes windows later.
try_asked_window() {
    local name="$1: windows.c asked, strict" lines
    run_with --window 100 --strict --keep "${command[@]}" 100 asked 45
    expect_windows "$name" 0 2 'verdict free'
    cat -- "$work/run/journal"/[0-9]*/journal0 | tr -d '\0' >"$work/lines"
    lines=$(grep -A 1 '^send 0 1 ' "$work/lines" | grep -c '^=done 1 2 3')
    lines+=" $(grep -o '^isend [0-9]* 0 null' "$work/lines" | sort -u)"
    [[ $lines == '1 isend 1 0 null' ]] || fails "$name: not asked there, or another request goes on: $lines"
}

# Random programs have the verdict that they have without windows.
try_random_windows() {
    local library=$1 seed found=0 unknown=0 right=0 hung
    prepare "$library" random/ 3
    for ((seed = 1; seed <= seeds; seed++)); do
        run_with --window 100 --for 120 "${command[@]}" "$seed" 150 pauses
        expect_windows "$library: random program $seed with pauses" 0 2 'verdict free'
        run_with --window 100 --for 120 "${command[@]}" "$seed"
        expect_windows "$library: random program $seed" 0 0 'verdict free'
        try_fault "$library: random program $seed with a fault, in windows" --window 100 "${command[@]}" \
            "$seed" 120 fault
    done
    echo "$library: $seeds programs with a fault, in windows: $found hung and were found, $unknown hung and" \
        "are unfinished, $right ended"
}

# A freed communicator isn't in the next window; while persistent requests may be started on it there is none.
try_freed() {
    local library=$1
    prepare "$library" windows-freed.c 3
    run_with --window 300 --for 60 "${command[@]}" inside
    expect_windows "$library: windows-freed.c inside" 0 2 'verdict free'
    run_with --window 300 --for 60 "${command[@]}" persistent
    expect_windows "$library: windows-freed.c persistent" 0 0 'moments without a cut: calls failed'
}

# Each window numbers its requests anew, so that no run has too many of them.
try_numbers() {
    local name="$1: windows.c, numbers of requests" most
    prepare "$1" windows.c 3
    run_with --window 600 --keep "${command[@]}" 400
    expect_windows "$name" 0 2 'verdict free'
    most=$(cat -- "$work/run/journal"/[0-9]*/journal0 | tr -d '\0' |
        sed -n 's/^i[a-z]* \([0-9]*\) .*/\1/p' | sort -n | tail -n 1)
    ((most < 1200)) || fails "$name: $most"
}

# Much more may be called between two barriers than before.
try_phases() {
    prepare "$1" phases.c 2
    run_with --for 100 "${command[@]}" 60000 200 8000
    expect_windows "$1: phases.c" 0 2 'verdict free'
}

# A rank that is recorded no further exchanges all the same.
try_closed_journal() {
    local name="$1: windows.c closes"
    run_with --window 20000 --for 60 "${command[@]}" 1000 closes 0
    expect_windows "$name" 5 0 'recorded no further: the program closed its journal'
    ! grep -q 'was ended' "$work/errors" || fails "$name: it hung"
}

# A rank without a recorder meets nobody's exchange.
try_unrecorded_window() {
    local library=$1
    prepare "$library" windows.c 1
    run_with --window 500 --for 60 "${command[@]}" 200 : -n 1 env -u LD_PRELOAD "$work/program" 200
    grep -q 'no windows, since a rank' "$work/run/journal/left0" || fails "$library: windows.c: not counted"
    ! grep -q 'was ended' "$work/errors" || fails "$library: windows.c, a rank that isn't recorded: it hung"
}

# The recorder's own exchanges hold no rank whose calls differ from those of others, or aren't all seen.
try_differing() {
    local library=$1 way
    for way in sizes unseen; do
        prepare "$library" differing.c 3
        run_with --window 300 --for 60 "${command[@]}" "$way"
        check_journals "$library: differing.c $way"
        if grep -q '^it came to its end' "$work/said" && ! grep -q 'was ended' "$work/errors"; then
            echo "$library: differing.c $way: it came to its end"
        else
            cat -- "$work/said" "$work/errors" >&2
            fails "$library: differing.c $way: it hung"
        fi
    done
}

# Where an exchange is complete only after a rank went on, the rank cuts its journal where it was.
try_late_cuts() {
    local library=$1 name="$1: windows.c, exchanges that come late"
    prepare "$library" windows.c 3
    compile "mpicc.$library" "${quiet[@]}" -shared -fPIC -o "$work/late.so" late.c -ldl
    run_with true 2>/dev/null || :
    rm -rf -- "$work/run"
    mkdir -p -- "$work/run/journal"
    touch -- "$work/run/.mpiwait-run"
    status=0
    LD_PRELOAD="$here/record/out/$library/record.so:$work/late.so" MPIWAIT_WINDOW=600 \
        MPIWAIT_JOURNAL="$work/run/journal" \
        timeout 120 "${command[@]}" 400 >"$work/said" 2>"$work/errors" </dev/null ||
        fails "$name: the program failed: $(cat -- "$work/errors")"
    run_with --again
    expect_windows "$name" 0 2 'verdict free'
}

# The most megabytes of the recording while it is made go into `disk', and the time at which a hang is
# reported into `reported'.
watch_run() {
    local most=0 now
    while [[ -e $work/watched ]]; do
        now=$(du -sm -- "$work/run" 2>/dev/null | cut -f 1 || :) # windows go meanwhile
        ((${now:-0} <= most)) || most=$now
        echo "$most" >"$work/disk"
        [[ -e $work/reported ]] || ! grep -q 'wait for ever' -- "$work/errors" || date +%s >"$work/reported"
        sleep 0.2
    done
}

# Runs and judges, with what that uses in `used' and `disk'.
watch_windows() {
    : >"$work/watched"
    : >"$work/errors"
    rm -f -- "$work/reported"
    watch_run &
    measure_use "$here/run" --folder "$work/run" --window 200000 --json "$work/json" --stop \
        "${command[@]}" "$@" 2>"$work/errors"
    rm -- "$work/watched"
    wait $!
}

# The verdict, the status, and how many windows were judged, how many weren't, and of how many calls.
counted_windows() {
    python3 - "$work/json" <<'END'
import json, sys
story = json.load(open(sys.argv[1]))
windows = story["windows"]
print(story["verdict"], story["status"], windows["judged"], windows["unjudged"], windows["calls"])
END
}

# A run of 20,000,000 calls of each rank is judged to its end, or where it hangs after three quarters of that.
try_long_runs() {
    local library=$1 way name seconds processor megabytes disk found
    for way in free hang; do
        name="$library: windows.c, 20,000,000 calls, $way"
        watch_windows 3921569 "$way" 2941176 "${REST:-20}"
        read -r seconds processor megabytes <"$work/used"
        disk=$(<"$work/disk")
        found=$(counted_windows)
        echo "$name: $found; $seconds s, $processor s of the processor, $megabytes MB, $disk MB of disk"
        ((megabytes <= 1000 && disk <= 200)) || fails "$name: more than 1 GB or 200 MB of disk"
        [[ $found =~ ^$way\ [0-9]+\ [0-9]+\ 0\  ]] || fails "$name: another verdict, or not all are judged"
    done
    [[ -e $work/reported ]] || { fails "$name: not reported while it runs"; return; }
    seconds=$(($(<"$work/reported") - $(sed -n 's/^hang at //p' "$work/errors")))
    echo "$name: reported $seconds seconds later"
    ((seconds <= 15)) || fails "$name: more than 15 seconds later"
}

# Two ranks that send first in the third window are reported while the run goes on.
try_head_in_a_window() {
    local name="$1: windows.c, sends to each other in the third window" lines
    watch_windows 600000 head 98039 "${REST:-20}"
    lines=$(grep -o 'window [0-9]* of journal: verdict hang\|^end$' "$work/errors" | tr '\n' ' ')
    if [[ $lines == 'window 3 of journal: verdict hang end ' ]]; then
        echo "$name: reported while it runs"
    else
        fails "$name: $lines"
    fi
}

# One that is never clean is recorded to the most calls, and the report says why.
try_never_clean() {
    local name="$1: windows.c, messages under way at each sum"
    watch_windows 220000 under 0
    if grep -q '"status": 5' "$work/json" && grep -q 'moments without a cut: messages were' "$work/json"; then
        echo "$name: $(grep -o 'moments without a cut: [^"]*' "$work/json")"
    else
        fails "$name: another report"
    fi
}

# A communicator takes no longer to make the more were made before. Only MPICH makes them so fast that it
# shows.
try_many_communicators() {
    local library=$1 way
    [[ $library == mpich ]] || return 0
    for way in '' group; do
        prepare "$library" many-communicators.c 2
        rm -rf -- "$work/many"
        mkdir -- "$work/many"
        # shellcheck disable=SC2086
        MPIWAIT_WINDOW=200000 record_into "$library" "$work/many" $way
        expect_line "$library: many-communicators.c $way" 0 ' s, and ' 'none takes longer than before'
    done
}

try_windows_large() {
    knows_windows || { echo "$1: windows-large: passed over: the checker knows none"; return; }
    prepare "$1" windows.c 4
    try_long_runs "$1"
    try_head_in_a_window "$1"
    try_never_clean "$1"
    try_many_communicators "$1"
}

try_free_windows() {
    run_with --window 600 "${command[@]}" 400
    expect_windows "$1: windows.c" 0 3 'verdict free'
    expect_removed "$1: windows.c" 1
}

try_window_that_hangs() {
    run_with --window 600 "${command[@]}" 400 head 150
    expect_windows "$1: windows.c head" 1 2 '^tools/run: window [0-9]* of journal: verdict hang'
    expect_removed "$1: windows.c head" 2
}

try_windows() {
    local library=$1
    knows_windows || { echo "$library: windows: passed over: the checker knows none"; return; }
    prepare "$library" windows.c 3
    try_free_windows "$library"
    run_with --window 600 --keep "${command[@]}" 400
    expect_windows "$library: windows.c, --keep" 0 3 'verdict free'
    run_with --again
    expect_windows "$library: windows.c, --again" 0 3 'verdict free'
    run_with --window 600 "${command[@]}" 400 orders
    expect_windows "$library: windows.c orders" 0 3 'verdict free'
    run_with --window 600 --for 60 "${command[@]}" 400 uneven
    expect_windows "$library: windows.c uneven" 0 3 'verdict free'
    try_window_that_hangs "$library"
    run_with --window 600 --quiet 3 --stop --for 300 "${command[@]}" 400 hang 300
    expect_windows "$library: windows.c hang" 1 2 'wait for ever.*; the run is ended'
    grep -q 'MPI_Irecv at .*windows[.]c:[0-9]' "$work/said" ||
        fails "$library: windows.c hang: no line of the call that goes on"
    try_no_cut "$library"
    try_asked_window "$library"
    try_closed_journal "$library"
    try_unrecorded_window "$library"
    try_freed "$library"
    try_phases "$library"
    try_numbers "$library"
    try_differing "$library"
    try_late_cuts "$library"
    try_random_windows "$library"
}
