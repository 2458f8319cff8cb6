# Tries of random programs, and of runs that are cut off anywhere. A part of tools/try, which reads it.
# shellcheck shell=bash

seeds=${SEEDS:-50}

# A random program that can't deadlock is free.
try_seed() {
    local name=$1
    shift
    run_with "$@"
    check_journals "$name"
    [[ $status == 0 ]] || { cat -- "$work/said" "$work/errors"; fails "$name: status $status"; }
}

try_random_with() {
    local library=$1 options=${2-} seed before=$failed
    prepare "$library" random/ 4
    for ((seed = 1; seed <= seeds; seed++)); do
        # shellcheck disable=SC2086
        try_seed "$library: random program $seed${options:+, $options}" $options --for 120 \
            "${command[@]}" "$seed"
    done
    [[ $failed != "$before" ]] || echo "$library: $seeds random programs${options:+, $options}: free"
}

try_random() {
    try_random_with "$1"
}

try_strict_random() {
    try_random_with "$1" --strict
}

# A run that is free isn't a hang by being cut off: one rank's journal ends after some of its lines.
try_cuts() {
    local library=$1 journal lines at calls cuts=0 before=$failed name="$1: masters.c, cut off"
    prepare "$library" masters.c 4
    run_with "${command[@]}"
    expect_status "$name nowhere" 0
    for journal in "$(journals)"/journal*; do
        rm -rf -- "$work/cut"
        cp -r -- "$(journals)" "$work/cut"
        lines=$(tr -d '\0' <"$journal" | wc -l)
        for ((at = 2; at < lines; at++)); do
            head -n "$at" "$journal" | sed '1s/ o / i /' >"$work/cut/${journal##*/}"
            for calls in strict went; do
                status=0
                "${MPIWAIT:-$here/../mpiwait}" judge "--calls=$calls" "$work/cut" >"$work/said" || status=$?
                [[ $status == [05] ]] ||
                    fails "$name after line $at of ${journal##*/}, $calls: status $status"
            done
            cuts=$((cuts + 1))
        done
    done
    [[ $failed != "$before" ]] || echo "$name at $cuts places: never a hang"
}

# A program with a fault that hung is never free, one that ended never a hang. What aborted is left aside.
try_fault() {
    local name=$1 ended
    shift
    run_with --strict --for 10 "$@"
    check_journals "$name"
    ended=$(sed -n 's/^tools\/run: the run ended with status \([0-9]*\)$/\1/p' "$work/errors")
    hung=$(grep -c 'the run was ended after' "$work/errors" || :)
    case $hung,${ended:-0},$status in
    0,0,1 | [1-9],*,0)
        cat -- "$work/said" "$work/errors"
        fails "$name: hung $hung, ended ${ended:-0}, status $status"
        ;;
    [1-9],*,1) found=$((found + 1)) ;;
    [1-9],*,5) unknown=$((unknown + 1)) ;;
    0,0,*) right=$((right + 1)) ;;
    esac
}

try_faults() {
    local library=$1 seed before=$failed found=0 unknown=0 right=0 hung
    prepare "$library" random/ 4
    for ((seed = 1; seed <= seeds; seed++)); do
        try_fault "$library: random program $seed with a fault" "${command[@]}" "$seed" 120 fault
    done
    echo "$library: $seeds programs with a fault: $found hung and were found, $unknown hung and are" \
        "unfinished, $right ended"
    [[ $failed != "$before" ]] || echo "$library: none that hung is free, and none that ended is a hang"
}
