# Tries that compare a report with the stored one. A part of tools/try, which reads it.
# shellcheck shell=bash

# What the program and its launcher wrote comes before the report; how often a test found nothing differs from
# run to run, and so do the names of folders.
report_in() {
    sed -En '/^(Run 1 of |Window |error: |failed|verdict |no verdict|not judged|refused )/,$p' "$1" |
        sed "/^Only counted/,/^\$/d; s:$work:WORK:g" |
        sed -E 's/\([0-9,]+ times, found nothing\)/(N times, found nothing)/'
}

# The folder of the journals, or of those of the first window.
journals() {
    local folder=$work/run/journal
    [[ ! -d $folder/1 ]] || folder+=/1
    echo "$folder"
}

# Journals are as their format has them.
check_journals() {
    local name=$1 folder
    for folder in "$work/run/journal" "$work/run/journal"/run-* "$work/run/journal"/[0-9]*; do
        [[ -e $folder/journal0 ]] || continue
        recordings=$((recordings + 1))
        # A release has no bench/.
        [[ ! -d $here/../bench ]] || "$here/../bench/check-journals" "$folder" ||
            fails "$name: these journals are none"
    done
}

# The stored report: that of the library, where one is stored for it.
stored_for() {
    local name=$programs/$1
    [[ ! -e $name.$2.report ]] || name=$name.$2
    echo "$name.report"
}

compare_with() {
    local name=$1 report=$2
    [[ -z $store ]] || cp -- "$work/report" "$report"
    if diff -u -- "$report" "$work/report"; then
        echo "$name: $(head -n 1 "$report"), as stored"
    else
        cat -- "$work/errors" >&2
        fails "$name: another report than the stored one"
    fi
}

# Runs tools/run with some words; what it says is in said, errors and report of the work folder.
run_with() {
    status=0
    "$here/run" --folder "$work/run" "$@" >"$work/said" 2>"$work/errors" </dev/null || status=$?
    printf '\nstatus %d\n' "$status" >>"$work/said"
    report_in "$work/said" >"$work/report"
}

compare() {
    local name=$1 report=$2
    shift 2
    run_with "$@"
    check_journals "$name"
    compare_with "$name" "$report"
}

# What came of a try: a status, and a line of standard error. What else is wrong is named.
expect_line() {
    local name=$1 wanted=$2 line=$3 right=$4 wrong=${5-}
    if [[ $status == "$wanted" && -z $wrong ]] && grep -q -- "$line" "$work/errors"; then
        echo "$name: $right"
    else
        cat -- "$work/said" "$work/errors" >&2
        fails "$name: status $status${wrong:+, $wrong}"
    fi
}

# A program whose library can't do what it is about.
is_possible() {
    case $2 in
    deep-plugin*)
        # A plugin that Open MPI's calls go to directly can't be loaded: Open MPI is loaded twice then.
        [[ $1 == mpich ]]
        ;;
    init-twice)
        # A second MPI_Init ends the program, whatever its error handler is.
        [[ $1 == mpich ]]
        ;;
    differ-order)
        # MPICH's MPI_Barrier takes the message of MPI_Bcast and aborts the run, wherever the others are.
        [[ $1 == openmpi ]]
        ;;
    failed-*)
        # Open MPI 4 has no MPI_Isendrecv, and its MPI_Waitall doesn't say that this receive was too short.
        [[ $1 == mpich ]]
        ;;
    esac
}

# They become words of the program.
build_plugins() {
    local library=$1 plugin
    shift
    for plugin; do
        compile "mpicc.$library" -shared -fPIC -o "$work/$plugin.so" "$plugin.c"
        command+=("$work/$plugin.so")
    done
}

try_row() {
    local library=$1 report=$2 source=$3 ranks=$4 options=() name
    shift 4
    while [[ $# -gt 0 && $1 != -- ]]; do
        options+=("$1")
        shift
    done
    [[ $# -eq 0 ]] || shift
    name="$library: $source with $ranks ranks${options[*]:+, ${options[*]}}${*:+, $*}"
    is_possible "$library" "$report" || { echo "$name: passed over: this library can't"; return; }
    launch "$library" "$ranks"
    build "$library" "$source" || return 0
    case $source in
    deep-plugin.c) build_plugins "$library" plugin ;;
    reloads.c) build_plugins "$library" plugin other-plugin ;;
    esac
    compare "$name" "$(stored_for "$report" "$library")" ${options[@]+"${options[@]}"} "${command[@]}" "$@"
}

try_rows() {
    local library=$1 report words
    while read -r report words; do
        # shellcheck disable=SC2086
        [[ $report == '#' ]] || ! is_wanted "$report" || try_row "$library" "$report" $words
    done <"$here/tries/rows"
}

# Journals of more ranks and communicators than a test can make, as the recorder would have written them.
try_journals() {
    local name='journals of 1,024 ranks'
    rm -rf -- "$work/run"
    mkdir -p -- "$work/run/journal"
    touch -- "$work/run/.mpiwait-run"
    ./journals-1024 "$work/run/journal"
    compare "$name" "$programs/journals-1024.report" --again
}

# What holds a folder as a run does keeps another run out.
try_hold() {
    has flock || { echo 'a folder in use: passed over: there is no flock'; return; }
    local held
    mkdir -p -- "$work/run/journal"
    exec {held}<"$work/run"
    flock "$held"
    run_with --again
    exec {held}<&-
    expect_line 'a folder in use' 3 'in use' refused
}

try_texts() {
    local program=${MPIWAIT:-$here/../crates/mpiwait/out/mpiwait} name words
    if [[ ! -x $program ]]; then
        echo "texts: passed over: the program isn't built"
        return
    fi
    while read -r name words; do
        # shellcheck disable=SC2086
        if "$program" $words | diff -u -- "$here/texts/$name" -; then
            echo "texts: $name is the program's"
        else
            fails "texts: $name isn't the program's: \`mpiwait $words > tools/texts/$name' stores it"
        fi
    done <<'END'
help --help
version --version
check-help check --help
check-h check -h
check-version check --version
lint-help lint --help
lint-version lint --version
judge-help judge --help
judge-help judge -h
judge-version judge --version
close-help close --help
close-help close -h
close-version close --version
END
}
