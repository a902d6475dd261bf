# shellcheck shell=bash disable=SC2154
# Whether release/ holds what is built of the proved sources. `.ci/checks` reads this file and tools/program.sh; it sets `tree`, a
# tree in which `rt ci` proved these sources, and `room`, a folder for what is built, and counts by its function `check`.

# whether MADE names the sources as they lie here and are committed
names_the_sources() {
    local here
    here=$(git rev-parse HEAD:crates)
    [ "$(made_of release sources)" = "$(sources_sum)" ] && [ "$(made_of release tree)" = "$here" ] && return
    echo "release/MADE names tree $(made_of release tree), and the sources here are tree $here or not committed:"
    echo "run tools/release once .ci/run has proved them, and commit release/"
    return 1
}

# has_the_bytes LEVEL: whether the file of the release is the one that was built in the room
has_the_bytes() {
    cmp "$room/made/codes-$1" "release/codes-$1" && return
    [ "$(made_of release kit)" = "$("$rt" version)" ] || echo "release/ was made by the kit $(made_of release kit), and this one is $("$rt" version)"
    echo "run tools/release, and commit release/"
    return 1
}

lists_the_sums() { [ "$(cd release && sha256sum codes-*)" = "$(cat release/SHA256SUMS)" ]; }

# whether MADE names the processor levels, and a kit with the logic of this one. Kits of one logic differ in a letter, by what their `rt`
# can do; that both build the same is seen from the bytes.
names_the_levels() { [ "$(made_of release levels)" = "$levels" ] && [ "$(logic_of "$(made_of release kit)")" = "$(logic_of "$("$rt" version)")" ]; }
logic_of() { echo "${1#* logic }"; }

check_released() {
    check 'release/ was made of these sources' names_the_sources
    names_the_sources >/dev/null || return
    check 'release/SHA256SUMS has the checksums of its programs' lists_the_sums
    check 'release/MADE names a kit of this logic and the processor levels' names_the_levels
    mkdir -p "$room/made"
    for level in $levels; do
        # here, and not below `check`, so that a signal ends what it starts
        build "$tree" "$level" "$room/made/codes-$level"
        check "release/codes-$level is what is built of the proved sources" has_the_bytes "$level"
    done
}
