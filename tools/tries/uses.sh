# Tries of how tools/run is used: signals, several runs, names, launchers, other tools, full disks. A part of
# tools/try, which reads it.
# shellcheck shell=bash

# The program of a source for so many ranks, in `command'.
prepare() {
    launch "$1" "$3"
    build "$1" "$2"
}

# The processes of the program that still run.
left_over() {
    local file
    for file in /proc/[0-9]*/cmdline; do
        ! tr '\0' ' ' 2>/dev/null <"$file" | grep -q "^$work/program" || echo "${file//[!0-9]/}"
    done
}

# Waits for something, for a minute at most.
wait_until() {
    local left=300
    until "$@" >/dev/null 2>&1; do
        ((left-- > 0)) || return 1
        sleep 0.2
    done
}

# ---- Signals --------------------------------------------------------------------------------------

has_begun() {
    grep -aq '^send' "$(journals)/journal0" && grep -aq '^send' "$(journals)/journal1"
}

is_left_over() {
    [[ -z $(left_over) ]]
}

try_signals() {
    local library=$1 signal running name
    for signal in TERM HUP INT; do
        name="$library: SIG$signal to tools/run"
        rm -rf -- "$work/run"
        prepare "$library" large-messages.c 2
        env --default-signal=INT,HUP "$here/run" --folder "$work/run" "${command[@]}" \
            >"$work/said" 2>&1 </dev/null &
        running=$!
        wait_until has_begun || fails "$name: the run didn't begin"
        kill "-$signal" "$running"
        status=0
        wait "$running" || status=$?
        if [[ $status != 1 ]] || ! wait_until is_left_over; then
            cat -- "$work/said" >&2
            fails "$name: status $status, left over: $(left_over)"
        else
            check_journals "$name"
            echo "$name: the ranks ended, and the hang is reported"
        fi
    done
}

# ---- Options and statuses -------------------------------------------------------------------------

expect_status() {
    local name=$1 wanted=$2
    if [[ $status == "$wanted" ]]; then
        echo "$name: status $status"
    else
        cat -- "$work/said" "$work/errors" >&2
        fails "$name: status $status and not $wanted"
    fi
}

# Each file that is asked for is there, and the outputs of one run say the same.
try_options() {
    local library=$1 kind words=()
    for kind in json html svg junit sarif; do
        rm -f -- "$work/out.$kind"
        [[ $kind == svg ]] && ! has dot || words+=("--$kind" "$work/out.$kind")
    done
    prepare "$library" head-to-head.c 2
    run_with "${words[@]}" "${command[@]}"
    expect_status "$library: all outputs" 1
    for kind in json html junit sarif svg; do
        [[ $kind == svg ]] && ! has dot || grep -q 'head[.]c' "$work/out.$kind" ||
            fails "$library: --$kind: no line of code"
    done
    run_with --eager 4 "${command[@]}"
    expect_status "$library: --eager 4" 0
    run_with --eager 3 "${command[@]}"
    expect_status "$library: --eager 3" 1
    run_with --unproved "${command[@]}"
    expect_status "$library: --unproved" 1
    run_with --frames 16 "${command[@]}"
    expect_status "$library: --frames 16" 1
    run_with --frames 0 "${command[@]}"
    grep -q 'line 3 of journal0' "$work/said" || fails "$library: --frames 0: no line of the journal"
    status=0
    "$here/limits" "$work/run" >"$work/said" || status=$?
    expect_status "$library: limits" 0
    tail -n 1 "$work/said" | grep -q 'verdict free is 4$' || fails "$library: limits: another limit"
}

# A program that fails by itself, and one whose ranks call different collectives.
try_statuses() {
    local library=$1
    prepare "$library" statuses.c 2
    run_with "${command[@]}" fails
    expect_status "$library: a program that fails" 8
    run_with --frames 4 "${command[@]}" differs
    grep -q 'statuses.c:[0-9]*, called from main at statuses.c:[0-9]*' "$work/said" ||
        fails "$library: --frames 4: no callers"
    expect_status "$library: different roots" 7
    run_with --for 3 "${command[@]}" computes
    expect_status "$library: a run that is cut off" 5
    run_with "${command[@]}" kills
    expect_status "$library: a rank that is killed" 8
}

# ---- Several runs ---------------------------------------------------------------------------------

# How many lines of the report are this one.
count_lines() {
    grep -c -x -- "$1" "$work/report" || :
}

try_two_runs() {
    local library=$1 name free=() hang=()
    prepare "$library" persistent.c 4
    mv -- "$work/program" "$work/free"
    free=("${command[@]:0:${#command[@]}-1}" "$work/free")
    prepare "$library" head-to-head.c 2
    hang=("${command[@]}")
    # shellcheck disable=SC2016
    compare "$library: two runs, one after the other" "$programs/two-runs.report" \
        env SECOND="$(printf '%q ' "${hang[@]}")" sh -c '"$@"; eval "$SECOND"' sh "${free[@]}"
    name="$library: two runs at once"
    mkdir -p -- "$work/1" "$work/2" # of two mpirun of Open MPI that make one folder at once, one fails
    # shellcheck disable=SC2016
    run_with sh -c 'for at in 1 2; do TMPDIR=$0/$at "$@" & done; wait' "$work" "${free[@]}"
    check_journals "$name"
    if [[ $status == 0 && $(count_lines 'verdict free: every rank comes to its MPI_Finalize') == 2 ]]; then
        echo "$name: both are free"
    else
        cat -- "$work/said" "$work/errors" >&2
        fails "$name: status $status"
    fi
}

# ---- Names ----------------------------------------------------------------------------------------

# A file and a folder whose names have a line feed, a tab, a form feed, U+2028 and a byte that is no text.
try_names() {
    local library=$1 name=$'a\nb\tc\fd\342\200\250e\377f' status=0
    mkdir -p -- "$work/$name"
    cp head-to-head.c "$work/$name/$name.c"
    launch "$library" 2
    compile "mpicc.$library" -o "$work/$name/$name" "$work/$name/$name.c"
    "$here/run" --folder "$work/$name/run" --json "$work/$name/json" "${command[@]}" "$work/$name/$name" \
        >"$work/said" 2>"$work/errors" </dev/null || status=$?
    rm -rf -- "$work/run"
    mv -- "$work/$name/run" "$work/run"
    check_journals "$library: names"
    if [[ $status == 1 && $(grep -c 'c:9 to rank' "$work/said") == 2 && -s $work/$name/json ]]; then
        echo "$library: names of any bytes: the lines are reported"
    else
        cat -- "$work/said" "$work/errors" >&2
        fails "$library: names of any bytes: status $status"
    fi
}

# ---- Libraries and launchers ----------------------------------------------------------------------

expect_hang() {
    local name=$1
    check_journals "$name"
    if [[ $status == 1 ]]; then
        echo "$name: recorded"
    else
        cat -- "$work/said" "$work/errors" >&2
        fails "$name: status $status"
    fi
}

try_paths() {
    local library=$1 folder
    prepare "$library" head-to-head.c 2
    for folder in libmpich-build libmpi.so.40-build libmpich.so.12; do
        mkdir -p -- "$work/$folder"
        cp -- "$work/program" "$work/$folder/program"
        run_with "${command[@]:0:${#command[@]}-1}" "$work/$folder/program"
        expect_hang "$library: a path with $folder in it"
    done
}

try_launcher() {
    local library=$1 name
    prepare "$library" head-to-head.c 2
    name="$library: a launcher of another name and a script"
    # shellcheck disable=SC2016
    printf '#!/bin/sh\nexec %s "$@"\n' "${command[*]:0:${#command[@]}-3}" >"$work/start"
    printf '#!/bin/sh\nexec %s\n' "$work/program" >"$work/script"
    chmod +x "$work/start" "$work/script"
    run_with "$work/start" -n 2 "$work/script"
    [[ $status == 3 ]] && grep -q -e '--mpi' "$work/errors" || fails "$name: status $status without --mpi"
    run_with --mpi "$library" "$work/start" -n 2 "$work/script"
    expect_hang "$name"
}

# Its runtime has to be loaded before all else, or be told otherwise.
try_sanitizer() {
    local library=$1 name="$1: a program built with -fsanitize=address"
    prepare "$library" head-to-head.c 2
    compile "mpicc.$library" -fsanitize=address -o "$work/program" head-to-head.c 2>/dev/null ||
        { echo "$name: passed over: it can't be built"; return; }
    ASAN_OPTIONS=detect_leaks=0 run_with "${command[@]}"
    expect_hang "$name"
}

# ---- Another tool ---------------------------------------------------------------------------------

# Its own lines are there, and the run is recorded.
expect_tool() {
    local name=$1
    expect_hang "$name"
    [[ $(grep -c '^tool: rank . sent 1 times' "$work/errors") == 2 ]] ||
        fails "$name: the other tool wasn't called: $(cat -- "$work/errors")"
}

try_tool() {
    local library=$1 tool=$work/tool.so words=()
    prepare "$library" head-to-head.c 2
    compile "mpicc.$library" -shared -fPIC -o "$tool" tool.c
    LD_PRELOAD=$tool run_with "${command[@]}"
    expect_tool "$library: another tool in LD_PRELOAD"
    run_with "${command[@]:0:${#command[@]}-1}" env LD_PRELOAD="$tool" "$work/program"
    expect_tool "$library: another tool by env"
    words=(-genv LD_PRELOAD "$tool")
    [[ $library == mpich ]] || words=(-x "LD_PRELOAD=$tool")
    run_with "${command[@]:0:${#command[@]}-3}" "${words[@]}" -n 2 "$work/program"
    expect_tool "$library: another tool by ${words[0]}"
}

# ---- Without recorder or room ---------------------------------------------------------------------

try_unrecorded() {
    local library=$1
    prepare "$library" head-to-head.c 1
    compare "$library: a rank that isn't recorded" "$programs/unrecorded.report" --for 60 \
        "${command[@]}" : -n 1 env -u LD_PRELOAD "$work/program"
    prepare "$library" strict-forms.c 1
    run_with --strict --for 60 "${command[@]}" : -n 1 env -u LD_PRELOAD "$work/program"
    check_journals "$library: a rank that isn't recorded, --strict"
    if grep -q 'the run was ended' "$work/errors"; then
        fails "$library: a rank that isn't recorded, --strict: the run hung"
    else
        echo "$library: a rank that isn't recorded, --strict: the run ended"
    fi
}

# The ranks' own journals, where there is so much room for them.
record_into() {
    local library=$1 folder=$2
    shift 2
    status=0
    timeout 120 env LD_PRELOAD="$here/record/out/$library/record.so" MPIWAIT_JOURNAL="$folder" \
        "${command[@]}" "$@" >"$work/said" 2>"$work/errors" </dev/null || status=$?
}

# Where there is no room for names, or for places of calls, the program goes on, and the report says so.
try_limited() {
    local library=$1 way=$2 name="$1: a limit on files, $2"
    run_with --frames 16 "${command[@]:0:${#command[@]}-1}" \
        bash -c 'ulimit -f 5000 && exec "$@"' bash "$work/program" "$way"
    check_journals "$name"
    expect_status "$name" 0
    grep -q '^it came to its end' "$work/said" || fails "$name: the program was ended"
    grep -q 'for which there was no room' "$work/said" || fails "$name: no word of it"
}

# Not even the ID of the run has room then. MPICH itself needs files.
try_no_files() {
    local library=$1 name="$1: files of no bytes"
    [[ $library == openmpi ]] || return 0
    run_with "${command[@]:0:${#command[@]}-1}" bash -c 'ulimit -f 0 && exec "$@"' bash "$work/program" names
    expect_line "$name" 4 "isn't recorded" 'the program runs, and that is reported' \
        "$(grep -q '^it came to its end' "$work/said" || echo 'the program was ended')"
}

try_no_room() {
    local library=$1 name="$1: a limit on files"
    prepare "$library" limited.c 1
    run_with --window 0 "${command[@]}"
    check_journals "$name"
    expect_line "$name" 5 'stops recording: there is no room' 'the recording stops' \
        "$(grep -q '^it came to its end' "$work/said" || echo 'the program was ended')"
    try_limited "$library" names
    try_limited "$library" places
    try_no_files "$library"
    try_full_disk "$library"
}

# ---- A full disk ----------------------------------------------------------------------------------

# Whether something can be mounted, by a command that gives it a namespace of its own.
mounts() {
    # shellcheck disable=SC2016
    "$@" sh -c 'mount -t tmpfs -o size=1m none "$1"' sh "$work/small" 2>/dev/null
}

# A disk of a megabyte, mounted for the recording alone. What was recorded is copied before it is gone.
try_mounted_disk() {
    local library=$1 name="$1: a full disk" alone=(unshare --mount)
    mkdir -p -- "$work/small"
    mounts "${alone[@]}" || alone=(unshare --user --map-root-user --mount)
    mounts "${alone[@]}" || { echo "$name: passed over: nothing can be mounted"; return; }
    rm -rf -- "$work/run"
    mkdir -p -- "$work/run"
    # shellcheck disable=SC2016
    printf '%s\n' 'mount -t tmpfs -o size=1m none "$1" && mkdir "$1/journal" || exit 99' \
        'small=$1 copy=$2; shift 2; "$@"; status=$?; cp -r "$small/journal" "$copy" && exit $status' \
        >"$work/on-small"
    launch "$library" 1
    build "$library" many-calls.c
    # Who is root there may not write into folders of root.
    command=(env TMPDIR="$work" OMPI_ALLOW_RUN_AS_ROOT=1 OMPI_ALLOW_RUN_AS_ROOT_CONFIRM=1 "${alone[@]}" \
        sh "$work/on-small" "$work/small" "$work/run" "${command[@]}")
    record_into "$library" "$work/small/journal"
    touch -- "$work/run/.mpiwait-run"
    [[ $status == 0 ]] || fails "$name: the program ended with $status: $(cat -- "$work/errors")"
    compare "$name" "$programs/no-room.report" --again
}

# The same without a mount: the recorder is told that there is no room.
try_denied_room() {
    local library=$1
    compile "mpicc.$library" -shared -fPIC -o "$work/full-disk.so" "$here/tries/full-disk.c" -ldl
    prepare "$library" many-calls.c 1
    LD_PRELOAD=$work/full-disk.so compare "$library: room on the disk is denied" \
        "$programs/no-room.report" --window 0 "${command[@]}"
}

try_full_disk() {
    try_denied_room "$1"
    try_mounted_disk "$1"
}

try_no_folder() {
    local library=$1 name="$1: no folder for the journals"
    prepare "$library" head-to-head.c 2
    record_into "$library" "$work/none/journal"
    expect_line "$name" 0 "isn't recorded" 'the program runs, and that is reported'
}

# Without memory for the recorder the program runs all the same, and nothing is free or a hang.
try_no_memory() {
    local library=$1 name calls
    prepare "$library" forms.c 4
    compile "mpicc.$library" -shared -fPIC -o "$work/no-memory.so" no-memory.c -ldl
    for calls in 0 1 2 4 8 16 32; do
        name="$library: no memory after $calls calls for it"
        NO_MEMORY=$calls LD_PRELOAD=$work/no-memory.so run_with --for 100 "${command[@]}"
        check_journals "$name"
        if [[ $status =~ [05] ]] && ! grep -q 'the run \(was \)\?ended' "$work/errors"; then
            echo "$name: $(head -n 1 "$work/report")"
        else
            cat -- "$work/said" "$work/errors" >&2
            fails "$name: status $status"
        fi
    done
}

# Signals of the program interrupt what reserves room on the disk.
try_interrupts() {
    local library=$1 name="$1: a signal while room is reserved"
    prepare "$library" many-wildcards.c 1
    compile "mpicc.$library" -shared -fPIC -o "$work/interrupts.so" interrupts.c -ldl
    LD_PRELOAD=$work/interrupts.so run_with --window 0 "${command[@]}"
    check_journals "$name"
    expect_status "$name" 5
    ! grep -q 'no room' "$work/errors" || fails "$name: the recording stopped"
}

# A journal has at most 32 bytes for each line, and nothing is added after the last call line.
try_bounds() {
    local library=$1 name="$1: the size of a journal" lines bytes
    prepare "$library" many-wildcards.c 1
    run_with --window 0 "${command[@]}"
    check_journals "$name"
    lines=$(tr -d '\0' <"$work/run/journal/journal0" | wc -l)
    bytes=$(stat -c %s "$work/run/journal/journal0")
    if ((bytes <= 32 * lines && lines <= 1400000)); then
        echo "$name: $lines lines, $bytes bytes"
    else
        fails "$name: $lines lines, $bytes bytes"
    fi
}
