# shellcheck shell=bash disable=SC2154
# Rows of every listed routine of the drivers, saved by LibreOffice, and back by `from-sheet`; for tools/field.

# LibreOffice stops without a word at about 246 files of one run.
batch=200

write_rows() {
    local folder record
    rm -rf "$made/sheet"
    mkdir -p "$made/sheet/rows"
    while IFS=$'\t' read -r _ folder; do
        for record in "$folder"/*.rec; do
            "$command" rows "$record" >"$made/sheet/rows/$(basename "$folder")-$(basename "$record" .rec).csv" || [ $? = 1 ]
        done
    done <"$made/records/pairs"
    # A refusal is no rows.
    { grep -lE '^no [0-9]+' "$made"/sheet/rows/*.csv || true; } | xargs --no-run-if-empty rm
    # LibreOffice writes no file of an empty one.
    find "$made/sheet/rows" -empty -delete
}

# All rows of a driver in one file: a file of rows of several listings is rows too.
join_rows() {
    local folder name
    mkdir -p "$made/sheet/joined"
    while IFS=$'\t' read -r _ folder; do
        name=$(basename "$folder")
        find "$made/sheet/rows" -name "$name-*.csv" | sort | xargs --no-run-if-empty cat >"$made/sheet/joined/$name.csv"
    done <"$made/records/pairs"
}

# Opened with every column as text and saved (docs/SHEET.md): quotes around every text, or where they are needed.
save_by_calc() {
    local from=$1 to=$2 quoted=$3 columns
    columns=$(seq -s / -f '%.0f/2' 256)
    mkdir -p "$to"
    find "$from" -name '*.csv' -print0 | xargs -0 -n "$batch" soffice --headless "-env:UserInstallation=file://$made/sheet/profile" \
        --infilter="CSV:44,34,76,1,$columns,0,false,true,false" \
        --convert-to "csv:Text - txt - csv (StarCalc):44,34,76,1,,0,$quoted,true,false" --outdir "$to" >"$to.log" 2>&1 || fail "soffice: $(tail -n 1 "$to.log")"
}

# What LibreOffice saved is other bytes, and `from-sheet` makes the rows again of every file.
compare_rows() {
    local what=$1 from=$2 saved=$3 rows name compared=0 differ=0 untouched=0
    for rows in "$from"/*.csv; do
        name=$(basename "$rows")
        compared=$((compared + 1))
        ! cmp -s "$rows" "$saved/$name" || untouched=$((untouched + 1))
        "$command" from-sheet "$saved/$name" >"$made/sheet/again" 2>"$made/sheet/err" && cmp -s "$rows" "$made/sheet/again" && continue
        differ=$((differ + 1))
        [ "$differ" -gt 3 ] || echo "sheet: $what: $name: $(head -n 1 "$made/sheet/err")" >&2
    done
    echo "sheet: $what: $(counted "$compared") files of $(counted "$(cat "$from"/*.csv | wc -l)") rows," \
        "$(counted "$untouched") saved as they were, $differ differ behind from-sheet"
    [ "$differ" = 0 ] || fail "sheet: $what: from-sheet does not give the rows back"
}

sheet_part() {
    need_package libreoffice-calc soffice
    need_records records drivers
    write_rows
    join_rows
    save_by_calc "$made/sheet/rows" "$made/sheet/quoted" true
    compare_rows 'every routine, all texts quoted' "$made/sheet/rows" "$made/sheet/quoted"
    save_by_calc "$made/sheet/rows" "$made/sheet/unquoted" false
    compare_rows 'every routine, quotes where needed' "$made/sheet/rows" "$made/sheet/unquoted"
    save_by_calc "$made/sheet/joined" "$made/sheet/joined-quoted" true
    compare_rows 'a file for each driver, all texts quoted' "$made/sheet/joined" "$made/sheet/joined-quoted"
    save_by_calc "$made/sheet/joined" "$made/sheet/joined-unquoted" false
    compare_rows 'a file for each driver, quotes where needed' "$made/sheet/joined" "$made/sheet/joined-unquoted"
}
