# A try of a long run: the time and the memory after its end. A part of tools/try, which reads it.
# shellcheck shell=bash

# Runs a command, and writes seconds and megabytes into `used'.
measure_use() {
    python3 - "$@" >"$work/used" <<'END'
import resource, subprocess, sys, time
began = time.monotonic()
subprocess.run(sys.argv[1:], stdout=subprocess.DEVNULL, stdin=subprocess.DEVNULL, check=False)
used = resource.getrusage(resource.RUSAGE_CHILDREN)
print(f"{time.monotonic() - began:.1f} {used.ru_utime + used.ru_stime:.1f} {used.ru_maxrss // 1024}")
END
}

# What `tools/run' does after a run ended, and the program's part of that.
try_large() {
    local library=$1 name="$1: 10 ranks of 1,000,000 calls" seconds processor megabytes calls part
    prepare "$library" million-calls.c 10
    run_with --window 0 "${command[@]}"
    expect_status "$name" 0
    for calls in strict went; do
        measure_use "${MPIWAIT:-$here/../mpiwait}" judge --json "--calls=$calls" "$work/run/journal"
        read -r seconds processor megabytes <"$work/used"
        echo "$name: judge --calls $calls: $seconds s, $processor s of the processor, $megabytes MB"
    done
    measure_use "$here/run" --folder "$work/run" --again
    read -r seconds processor megabytes <"$work/used"
    part="$seconds s, $processor s of the processor, $megabytes MB"
    echo "$name: judged and reported: $part"
    # On a machine with other work it takes longer than its processor's time.
    ((${processor%.*} < 15 && megabytes <= 1000)) || fails "$name: more than 15 s or 1 GB after the run's end"
}
