# shellcheck shell=bash disable=SC2154
# How long the command takes; for tools/field. Figures hold for a machine with nothing beside it.

# The seconds of so many runs of a command, in the order of length.
run_times() {
    local runs=$1 n
    shift
    for n in $(seq "$runs"); do
        python3 -c 'import subprocess, sys, time
start = time.monotonic()
done = subprocess.run(sys.argv[1:], stdout=subprocess.DEVNULL, stderr=subprocess.DEVNULL, check=False)
print(f"{time.monotonic() - start:.4f}" if done.returncode in (0, 1) else sys.exit(f"status {done.returncode}"))' "$@" ||
            fail "speed: run $n of $*"
    done | sort -n
}

middle() {
    awk '{ at[NR] = $1 } END { printf "%.3f", at[int((NR + 1) / 2)] }'
}

# The driver whose routines are nearest to 150 in number.
typical_driver() {
    local file folder routines
    while IFS=$'\t' read -r file folder; do
        routines=$(cut -d' ' -f1 <"$folder.summary")
        printf '%s\t%s\t%s\n' "$((routines > 150 ? routines - 150 : 150 - routines))" "$routines" "$file"
    done <"$made/records/pairs" | sort -n | head -n 1 | cut -f2,3
}

# From the file to listings, and from the file to records and index.
time_driver() {
    local routines file
    IFS=$'\t' read -r routines file <<<"$(typical_driver)"
    echo "speed: $(basename "$file") of $routines routines to listings: median of 20 runs $(run_times 20 "$command" list "$file" | middle) seconds"
    echo "speed: the same to records and an index: $(run_times 20 "$command" record "$file" -o "$made/speed/record" | middle) seconds"
}

time_drivers() {
    local all
    mapfile -t all <"$made/drivers"
    echo "speed: all ${#all[@]} drivers to listings in one process: median of 5 runs $(run_times 5 "$command" list "${all[@]}" | middle) seconds"
}

# All records of drivers and libraries in one folder, with one thread and two.
time_folder() {
    local threads count
    mkdir -p "$made/speed/records"
    find "$made/records" "$made/library-records" -name '*.rec' | python3 -c 'import os, sys
for n, path in enumerate(sys.stdin):
    os.link(path.rstrip("\n"), f"{sys.argv[1]}/{n:06d}.rec")' "$made/speed/records"
    count=$(find "$made/speed/records" -name '*.rec' | wc -l)
    for threads in 1 2; do
        echo "speed: a folder of $(counted "$count") records to listings, RAYON_NUM_THREADS=$threads:" \
            "median of 3 runs $(RAYON_NUM_THREADS=$threads run_times 3 "$command" list "$made/speed/records" | middle) seconds"
    done
}

# The proved program lists a record a process; of all drivers' records.
time_program() {
    local from record count=0
    if [ ! -x target/bin/listing ]; then
        echo "speed: target/bin/listing is not there (\`tools/made listing\` makes it): not compared"
        return
    fi
    from=$(date +%s%N)
    while read -r record; do
        target/bin/listing <"$record" >/dev/null
        count=$((count + 1))
    done < <(find "$made/records" -name '*.rec')
    echo "speed: $(counted "$count") records of the drivers by target/bin/listing, a process each: $(since "$from") seconds"
}

speed_part() {
    need_records records drivers
    need_records library-records libraries
    rm -rf "$made/speed"
    mkdir -p "$made/speed"
    time_driver
    time_drivers
    time_folder
    time_program
}
