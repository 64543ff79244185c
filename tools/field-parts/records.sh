# shellcheck shell=bash disable=SC2154
# Records of all files, what became of them, and the same answers of the records alone; for tools/field.

# Each file of a list into a folder of its own; what `record` printed stands beside it, and `pairs` has each file with its folder.
record_all() {
    local list=$1 to=$2 file name status
    rm -rf "$to"
    mkdir -p "$to"
    while read -r file; do
        name=$(short_name "$file") status=0
        "$command" record "$file" -o "$to/$name" >"$to/$name.summary" 2>"$to/$name.err" || status=$?
        [ "$status" -lt 2 ] || fail "record $file: status $status: $(head -c 300 "$to/$name.err")"
        printf '%s\t%s\n' "$file" "$to/$name" >>"$to/pairs"
    done <"$list"
}

# `list` of each folder, beside its index.
list_all() {
    local folder status
    while IFS=$'\t' read -r _ folder; do
        status=0
        "$command" list "$folder" >"$folder.listing" 2>"$folder.err" || status=$?
        [ "$status" -lt 2 ] || fail "list $folder: status $status: $(head -c 300 "$folder.err")"
    done <"$1/pairs"
}

# Made once for all parts that read records.
need_records() {
    if [ ! -s "$made/$1/pairs" ] || [ "$command" -nt "$made/$1/pairs" ]; then
        record_all "$made/$2" "$made/$1"
    fi
}

records_part() {
    record_all "$made/drivers" "$made/records"
    list_all "$made/records"
    python3 "$parts/records.py" drivers "$made/records/pairs" || fail "records: drivers differ"
    record_all "$made/libraries" "$made/library-records"
    list_all "$made/library-records"
    python3 "$parts/records.py" libraries "$made/library-records/pairs" || fail "records: libraries differ"
}
