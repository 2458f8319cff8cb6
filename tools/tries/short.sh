# Short tries of what longer ones try at length, for tests/mpi. A part of tools/try, which reads it.
# shellcheck shell=bash

# The first report that README.md shows, without the lines around it.
report_of_readme() {
    sed -n '/^```console$/,/^```$/p' "$here/../README.md" >"$work/shown"
    report_in "$work/shown" | sed '/^```$/,$d'
}

# README's program as README runs it. With Open MPI it hangs, and is ended when that is reported.
try_readme() {
    local library=$1 name="$1: the program of README.md" wrong=''
    sed -n '/^```c$/,/^```$/p' "$here/../README.md" | sed '/^```/d' >"$work/exchange.c"
    launch "$library" 2
    cd -- "$work"
    if compile "mpicc.$library" -o exchange exchange.c; then
        run_with --quiet 2 --stop --for 60 "${command[@]}" ./exchange
    else
        status='of the compiler'
    fi
    cd -- "$programs"
    check_journals "$name"
    report_of_readme >"$work/shown.report"
    if [[ $library == openmpi ]]; then
        [[ $(grep -c 'rank [01] .*MPI_Send at exchange[.]c:8' "$work/report") == 2 ]] ||
            wrong='no line of a send'
    else
        head -n "$(wc -l <"$work/shown.report")" "$work/report" | diff -u -- "$work/shown.report" - ||
            wrong='not the report that README.md shows'
    fi
    [[ -s $work/shown.report ]] || wrong='README.md shows no report'
    [[ -z $wrong ]] || fails "$name: $wrong"
    expect_status "$name" 1
}

# A journal that somebody has written into is refused.
try_refused() {
    local library=$1
    prepare "$library" head-to-head.c 2
    run_with "${command[@]}"
    sed -i '2s/^/sent /' "$(journals)/journal1"
    run_with --again
    expect_status "$library: a journal with a word that isn't one" 2
}

# The words of tools/run don't name a command, or the program can't be recorded.
try_words() {
    run_with
    expect_status "$1: no command" 3
}

# As the tries of the alarm, but ranks wait sooner, and are reported sooner.
try_alarm_stop() {
    try_alarm_of_a_hang "$1" 3 2 --quiet 2
}

try_some_windows() {
    knows_windows || { echo "$1: some-windows: passed over: the checker knows none"; return; }
    prepare "$1" windows.c 3
    try_free_windows "$1"
    try_window_that_hangs "$1"
    try_way_without_cut "$1" under 'moments without a cut: messages were under way'
}
