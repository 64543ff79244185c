# shellcheck shell=bash disable=SC2154
# Records against the second decoder, Zydis (tools/field-decoder); for tools/field.

# The seed of the generated instructions.
generated_seed=1

build_decoder() {
    need_package libzydis-dev /usr/include/Zydis/Zydis.h
    local from=tools/field-decoder flags=(-std=c11 -O2 -g -Wall -Wextra -Wpedantic -Werror)
    "${CC:-cc}" "${flags[@]}" "$from"/{bytes,compare,explained,image,main,names,operands,record,registers,tally}.c -lZydis -o "$made/decoder"
    "${CC:-cc}" "${flags[@]}" "$from"/{bytes,generate}.c -lZydis -o "$made/generate"
}

# The records of a list of files and folders, each with its file.
record_list() {
    local file folder
    while IFS=$'\t' read -r file folder; do
        find "$folder" -name '*.rec' -printf "$file\t%p\n"
    done <"$1/pairs"
}

# Prints what the decoder finds of one set of records; the counts have the set's name.
compare_decoder() {
    local what=$1 folder=$2 status=0
    record_list "$folder" >"$folder/list"
    "$made/decoder" <"$folder/list" >"$folder/decoder" || status=$?
    sed "s/^decoder: /decoder: $what: /" "$folder/decoder"
    [ "$status" = 0 ] || fail "decoder: $what: there are differences without an explanation"
}

generate_files() {
    mkdir -p "$made/generated-files/x86_64-windows" "$made/generated-files/i386-windows"
    "$made/generate" 64 "$generated_seed" >"$made/generated-files/x86_64-windows/generated.sys"
    "$made/generate" 32 "$generated_seed" >"$made/generated-files/i386-windows/generated.sys"
    find "$made/generated-files" -name '*.sys' | sort >"$made/generated-list"
}

generated_part() {
    build_decoder
    generate_files
    record_all "$made/generated-list" "$made/generated"
    compare_decoder generated "$made/generated"
    find examples/driver -name '*.sys' >"$made/own-list"
    record_all "$made/own-list" "$made/own"
    compare_decoder 'the small driver' "$made/own"
}

decoder_part() {
    build_decoder
    need_records records drivers
    need_records library-records libraries
    compare_decoder drivers "$made/records"
    compare_decoder libraries "$made/library-records"
}
