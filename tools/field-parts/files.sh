# shellcheck shell=bash disable=SC2154
# Wine's files and the packages that the parts need; for tools/field.

# root itself, or sudo without a question.
as_root() {
    if [ "$(id -u)" = 0 ]; then
        "$@"
    else
        sudo -n "$@"
    fi
}

# Installs a package if a program or file that it has is not there.
need_package() {
    local package=$1 test=$2
    ! compgen -G "$test" >/dev/null && ! command -v "$test" >/dev/null || return 0
    command -v apt-get >/dev/null || missing "$test is not here, and no apt-get to install $package"
    say "installing $package"
    as_root env DEBIAN_FRONTEND=noninteractive apt-get install --quiet --yes --no-install-recommends "$package" >"$made/install.log" 2>&1 ||
        missing "$package cannot be installed: $(tail -n 1 "$made/install.log")"
}

# apt with lists and architectures of its own, so that the system stays as it is; apt checks what it fetches by the distribution's signatures.
write_apt_config() {
    mkdir -p "$made"/apt/state/lists/partial "$made"/apt/cache/archives/partial
    cat >"$made/apt/config" <<CONFIG
Dir::State "$made/apt/state";
Dir::State::status "/var/lib/dpkg/status";
Dir::Cache "$made/apt/cache";
APT::Architectures { "amd64"; "i386"; };
APT::Sandbox::User "$(id -un)";
CONFIG
}

# One architecture's package, unpacked.
fetch_package() {
    local bits=$1 architecture=$2 deb
    (cd "$files" && APT_CONFIG=$made/apt/config apt-get --quiet download "libwine:$architecture") >>"$made/fetch.log" 2>&1 || return 1
    deb=$(compgen -G "$files/libwine_*_$architecture.deb") || return 1
    dpkg-deb --extract "$deb" "$files/$bits"
    say "fetched $(basename "$deb"), sha256 $(sha256sum <"$deb" | cut -d' ' -f1)"
}

fetch_files() {
    command -v apt-get >/dev/null || missing "Wine's files come from Debian's packages, and there is no apt-get here; FIELD_FILES may name a folder with them"
    say "fetching Debian's packages libwine for amd64 and i386 into $files"
    write_apt_config
    mkdir -p "$files"
    APT_CONFIG=$made/apt/config apt-get --quiet update >"$made/fetch.log" 2>&1 || say "a list of packages could not be had; the others are used"
    fetch_package 64 amd64 || missing "libwine for amd64 cannot be fetched: $(tail -n 1 "$made/fetch.log")"
    fetch_package 32 i386 || say "libwine for i386 cannot be fetched: only 64 bits are tested"
}

# The files with an ending, by bits and name, wherever the folder is.
files_ending() {
    find "$files" -path "*-windows/*.$1" | awk -F/ '{ print $(NF - 1) "/" $NF "\t" $0 }' | LC_ALL=C sort | cut -f2
}

# Sets `files`, and writes the paths of drivers and of every tenth library into lists.
find_files() {
    files=$(realpath -m "${FIELD_FILES:-$made/files}")
    [ -n "$(find "$files" -name '*.sys' -print -quit 2>/dev/null)" ] || fetch_files
    files_ending sys >"$made/drivers"
    files_ending dll | awk 'NR % 10 == 0' >"$made/libraries"
    [ -s "$made/drivers" ] || missing "no *-windows/*.sys below $files"
    say "$(wc -l <"$made/drivers") drivers, $(grep -c x86_64-windows "$made/drivers") of 64 bits; every tenth library: $(wc -l <"$made/libraries")"
}

# A file's name with its bits: http.sys-64.
short_name() {
    local bits=32
    [[ $1 != *x86_64-windows/* ]] || bits=64
    echo "$(basename "$1")-$bits"
}
