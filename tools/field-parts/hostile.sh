# shellcheck shell=bash disable=SC2154
# Damaged drivers: the command ends in time, within its memory and never by a signal; for tools/field.

hostile_part() {
    rm -rf "$made/hostile"
    mkdir -p "$made/hostile"
    python3 "$parts/hostile.py" "$command" "$made/drivers" "$made/hostile" || fail "hostile: the files that show it are in target/field/hostile"
}
