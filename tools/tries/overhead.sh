# What a recorded call costs: nanoseconds a call in loops of two ranks, each the best of nine. A part of
# tools/try, which reads it.
#
# What recording adds is compared with what it costs to write a line by snprintf, measured in turn with the
# loops: so a slow machine fails no more than a fast one. If fewer than two processors are idle, the ranks
# wait for other work: what is too much then is passed over.
# shellcheck shell=bash

times=${TIMES:-9}              # how often each loop is measured
most_in_c=3 most_in_others=11 # lines: what recording may add to a call

# Lines with the name of each loop, a tab and nanoseconds. With `recorded', `strict' and `windows' it is
# recorded.
measure_once() {
    local library=$1 kind=$2 words=()
    if [[ $kind == recorded || $kind == strict || $kind == windows ]]; then
        rm -rf -- "$work/measured"
        mkdir -p -- "$work/measured"
        words=(env LD_PRELOAD="$here/record/out/$library/record.so" MPIWAIT_JOURNAL="$work/measured")
    fi
    [[ $kind != strict ]] || words+=(MPIWAIT_STRICT=1)
    [[ $kind != windows ]] || words+=(MPIWAIT_WINDOW=200000)
    words+=("${command[@]}")
    [[ $kind != line ]] || words=("$work/yardstick")
    timeout 300 "${words[@]}" </dev/null 2>>"$work/errors" | grep $'\t'
}

# The least of each loop, in the order in which they come.
least() {
    awk -F '\t' '!($1 in best) { order[++count] = $1; best[$1] = $2 } $2 < best[$1] { best[$1] = $2 }
        END { for (i = 1; i <= count; i++) print order[i] "\t" best[order[i]] }' "$1"
}

# How many processors were idle in this second.
idle_processors() {
    local before after
    read -r _ _ _ _ before _ </proc/stat
    sleep 1
    read -r _ _ _ _ after _ </proc/stat
    echo $(((after - before) / $(getconf CLK_TCK)))
}

# One program: lines with library, language, processors that were idle, the cost of a line, the loop, plain,
# recorded, strict and with windows.
measure() {
    local library=$1 language=$2 source=$3 time kind idle
    is_measured=yes
    prepare "$library" "$source" 2 || return 0
    is_measured=''
    for kind in plain recorded strict windows line; do
        : >"$work/$kind"
    done
    idle=$(idle_processors)
    for ((time = 0; time < times; time++)); do
        for kind in plain recorded strict windows line; do
            measure_once "$library" "$kind" >>"$work/$kind" ||
                fails "$library: $source, $kind: it failed: $(tail -n 3 -- "$work/errors")"
        done
    done
    paste <(least "$work/plain") <(least "$work/recorded" | cut -f 2) <(least "$work/strict" | cut -f 2) \
        <(least "$work/windows" | cut -f 2) |
        sed "s/^/$library\t$language\t$idle\t$(least "$work/line" | cut -f 2)\t/"
}

measure_library() {
    prepare "$1" head-to-head.c 2
    run_with "${command[@]}" # which builds the recorder
    compile "mpicc.$1" -O2 -o "$work/yardstick" yardstick.c || { not_built "$1" yardstick.c; return; }
    measure "$1" C overhead.c
    measure "$1" 'Fortran, use mpi' overhead.f90
    measure "$1" 'Fortran, use mpi_f08' overhead08.f90
    measure "$1" Python overhead.py
}

# Whether what recording adds to a loop is too much for lines of that cost.
judge_loop() {
    local name=$1 added=$2 most=$3 line=$4 idle=$5
    ((added > most * line)) || return 0
    name+=": $added nanoseconds a call, and $most lines cost $((most * line))"
    if ((idle < 2)); then
        echo "$name: passed over: the machine has other work"
    else
        fails "$name"
    fi
}

try_overhead() {
    local library language idle line loop plain recorded strict windows most
    for library in "$@"; do
        measure_library "$library"
    done >"$work/measures"
    echo "overhead: nanoseconds a call, the best of $times, on $(nproc) processors"
    echo '| language | loop | library | plain | recorded | strict | windows | a line | idle processors |'
    echo '|---|---|---|---|---|---|---|---|---|'
    while IFS=$'\t' read -r library language idle line loop plain recorded strict windows; do
        echo "| $language | $loop | $library | $plain | $recorded | $strict | $windows | $line | $idle |"
        most=$most_in_others
        [[ $language != C ]] || most=$most_in_c
        judge_loop "$library: $language: $loop" $((recorded - plain)) "$most" "$line" "$idle"
    done < <(grep $'\t' "$work/measures")
    grep -v $'\t' "$work/measures" || :
}
