# How the programs are built and launched with either MPI library. A part of tools/try, which reads it.
# shellcheck shell=bash

has() {
    command -v "$1" >/dev/null
}

# The words that launch so many ranks, in `command'.
launch() {
    local words=("mpirun.$1")
    if [[ $1 == openmpi ]]; then
        words+=(--oversubscribe)
        # Its ranks wait busily: on a machine that has other work they would take minutes.
        [[ -n ${is_measured-} ]] || words+=(--mca mpi_yield_when_idle 1)
        [[ $(id -u) != 0 ]] || words+=(--allow-run-as-root)
    fi
    command=("${words[@]}" -n "$2")
}

# A Python whose mpi4py is that of the library.
python_of() {
    local python version wanted='MPICH' ask='from mpi4py import MPI; print(MPI.Get_library_version())'
    [[ $1 == mpich ]] || wanted='Open MPI'
    for python in python3 /usr/bin/python3; do
        version=$("$python" -c "$ask" 2>/dev/null | tr -d '\0')
        if [[ $version == *"$wanted"* ]]; then
            echo "$python"
            return
        fi
    done
    return 1
}

# The headers of MPICH make gcc warn of MPI_STATUSES_IGNORE and MPI_UNWEIGHTED.
quiet=(-Wno-stringop-overflow -Wno-stringop-overread)

compile() {
    local compiler=$1
    shift
    "$compiler" -g -O0 "$@"
}

not_built() {
    fails "$1: $2 can't be built"
}

build_module() {
    has python3-config || { echo "$1: ring-module.py passed over: there is no python3-config"; return 1; }
    # shellcheck disable=SC2046
    "mpicc.$1" -O1 -shared -fPIC $(python3-config --includes) -o "$work/ring_module.so" ring-module.c ||
        { not_built "$1" ring-module.c; return 1; }
    command=(env PYTHONPATH="$work" "${command[@]}" python3 ring-module.py)
}

build_embedded() {
    local python
    for python in /usr/bin/python3-config python3-config; do
        # shellcheck disable=SC2046
        ! has "$python" || ! compile "mpicc.$1" $("$python" --includes) -o "$work/program" embedded.c \
            $("$python" --ldflags --embed) -lpthread 2>/dev/null || return 0
    done
    echo "$1: embedded.c passed over: there is no Python to embed"
    return 1
}

build_script() {
    local python
    python=$(python_of "$1") || { echo "$1: $2 passed over: no mpi4py of this library"; return 1; }
    command+=("$python" "$2")
}

# Adds the program to `command'. It is built where it lies, so that its lines are reported from there; what is
# built lies elsewhere.
build() {
    local library=$1 source=$2 compiler=mpicc
    case $source in
    ring-module.py) build_module "$library"; return ;;
    *.py) build_script "$library" "$source"; return ;;
    embedded.c) build_embedded "$library" || return 1 ;;
    *)
        [[ $source != *.f90 ]] || compiler=mpifort
        [[ $source != *.cc ]] || compiler=mpicxx
        has "$compiler.$library" ||
            { echo "$library: $source passed over: there is no $compiler.$library"; return 1; }
        rm -f -- "$work/program"
        build_with "$compiler.$library" "$source" || { not_built "$library" "$source"; return 1; }
        ;;
    esac
    command+=("$work/program")
}

build_with() {
    local compiler=$1 source=$2
    case $source in
    */) compile "$compiler" "${quiet[@]}" -o "$work/program" "$source"*.c ;;
    *.f90) compile "$compiler" -J "$work" -o "$work/program" "$source" ;;
    *) compile "$compiler" "${quiet[@]}" -o "$work/program" "$source" -lpthread -ldl ;;
    esac
}
