# What ./codes, tools/release and .ci/checks share: the sources of the program and their checksum, folders of built programs, and how
# a program is proved and built. Whoever reads this file sets `top`, the top of the repository, as a path from the root.
#
# A folder of built programs, release/ or out/proved/, holds the program for each processor level, as codes-x86-64-v2, SHA256SUMS,
# and MADE, which names the sources and the kit that they were made of, each on a line of its own.
# shellcheck shell=sh disable=SC2034,SC2154

# the processor levels that a release has
levels='x86-64-v2 x86-64-v3'
# the level that the kit builds for if none is named
default_level=x86-64-v2

# --- the sources

# source_files EXPRESSION..: `find` over crates/, but for the folders out/ of the crates, and crates.txt
source_files() (
    cd "$top" && find crates crates.txt \( -path 'crates/*/out' ! -path 'crates/*/*/out' \) -prune -o "$@"
)

# the checksum of the sources: of the name and the bytes of each file
sources_sum() (
    cd "$top" && source_files -type f -print | LC_ALL=C sort | xargs sha256sum | sum_of_input
)

sum_of_input() { sha256sum | cut -d ' ' -f 1; }

# the crates that the program stands on, itself among them
crates_of_program() {
    awk '!/^#/ && NF { name = $1; sub(":.*", "", name); line[name] = $0; names[++all] = name }
        END { need["codes"]; do { more = 0
            for (name in need) { n = split(line[name], part, " ")
                for (i = 2; i <= n; i++) if (part[i] in line && !(part[i] in need)) { need[part[i]]; more = 1 } } } while (more)
            for (i = 1; i <= all; i++) if (names[i] in need) print names[i] }' "$top/crates.txt"
}

# copy_sources TO: these crates, without their planted bugs, as a repository of their own
copy_sources() {
    mkdir -p "$1" && cp "$top/HANDLES" "$1/" || return 1
    for name in $(crates_of_program); do
        grep -E "^${name}[ :]" "$top/crates.txt" >>"$1/crates.txt" && mkdir -p "$1/crates/$name" || return 1
        for part in "$top/crates/$name"/*; do
            case ${part##*/} in
            out | must-fail) ;;
            *) cp -R "$part" "$1/crates/$name/" || return 1 ;;
            esac
        done
    done
}

# --- folders of built programs

# made_of FOLDER WHAT: what the folder was made of: its tree, sources or kit
made_of() { sed -n "s/^$2 //p" "$1/MADE" 2>/dev/null; }

# is_whole FOLDER LEVEL: whether the program of that level is the file whose checksum stands in SHA256SUMS
is_whole() {
    of_file=$(sum_of_input <"$1/codes-$2") && grep -qxF "$of_file  codes-$2" "$1/SHA256SUMS" 2>/dev/null
}

# describe FOLDER SOURCES [TREE]: writes MADE and SHA256SUMS for the programs in a folder
describe() {
    (cd "$1" && sha256sum codes-* >SHA256SUMS) || return 1
    {
        [ -z "${3-}" ] || echo "tree $3"
        echo "sources $2"
        echo "kit $("$rt" version)"
        echo "levels $(cd "$1" && echo codes-* | sed 's/codes-//g')"
    } >"$1/MADE"
}

# is_current FOLDER LEVEL: whether the folder has the program for that level, made of the sources as they are. A file of out/ keeps the
# signature of all files for which that was found by their checksums. `sum` keeps the checksum of the sources, and `why` says what is
# the matter.
is_current() {
    why='there is no program of the sources in crates/'
    [ -f "$1/MADE" ] || return 1
    why="there is no program of the sources for $2 (${1##*/}/ has $(made_of "$1" levels))"
    [ -f "$1/codes-$2" ] || return 1
    seen=$top/out/seen-${1##*/}-$2
    signature=$(signature "$1" "$2")
    [ -n "$signature" ] && [ "$(cat "$seen" 2>/dev/null)" = "$signature" ] && return
    says_so "$1" "$2" || return 1
    # what can't be written here is found by the checksums again
    [ -z "$signature" ] || (mkdir -p "$top/out" && echo "$signature" >"$seen.$$" && mv "$seen.$$" "$seen") 2>/dev/null || :
}

# signature FOLDER LEVEL: of the name, the number, the size and the time of change of each file; nothing if `find` doesn't print these
signature() {
    form='%p %i %s %C@\n'
    files=$({ source_files -type f -printf "$form" && find "$1/MADE" "$1/SHA256SUMS" "$1/codes-$2" -printf "$form"; } 2>/dev/null) && echo "$files" | sum_of_input
}

# says_so FOLDER LEVEL: the same by the checksums
says_so() {
    why="${1#"$top"/}/codes-$2 is not the file that SHA256SUMS beside it names"
    is_whole "$1" "$2" || return 1
    why="${1#"$top"/}/ was made of other sources than those in crates/"
    sum=${sum:-$(sources_sum)}
    [ "$(made_of "$1" sources)" = "$sum" ]
}

# --- proving and building

# sets rt and kit; the status is 1 if there is no kit
find_kit() {
    rt=$(command -v rt) || rt=${RATTLE_KIT:-/opt/rattle}/bin/rt
    [ -x "$rt" ] || return 1
    kit=$(dirname "$(dirname "$(readlink -f "$rt")")")
}

# A room: a folder for what is made on the way. It is removed, and the command that runs is ended, when the script ends, however it ends.
room=
child=
open_room() {
    trap close_room EXIT
    trap 'exit 129' HUP
    trap 'exit 130' INT
    trap 'exit 143' TERM
    # `rt ci` runs programs as nobody, below this folder
    room=$(mktemp -d) && chmod 711 "$room" && mkdir "$room/tmp"
}

close_room() {
    trap '' HUP INT TERM
    if [ -n "$child" ]; then
        kill "$child" 2>/dev/null
        wait "$child" 2>/dev/null
    fi
    # what it had started may write here for a moment
    for _ in 1 2 3 4 5; do
        [ -d "$room" ] || break
        rm -rf "$room" 2>/dev/null || sleep 1
    done
}

# in_room COMMAND..: runs a command, with its temporary files in the room. A signal is acted upon while it runs, and ends it too.
in_room() {
    # standard input by name, since a command with `&` has none
    exec 3<&0
    (TMPDIR=$room/tmp && export TMPDIR && "$@") <&3 3<&- &
    child=$!
    exec 3<&-
    wait "$child"
    set -- $?
    child=
    return "$1"
}

# the lines of `rt ci` on standard input, to the file tmp/log of the room; a line for each crate that is proved
progress() {
    awk -v all="$(crates_of_program | wc -l)" -v log_file="$room/tmp/log" '{ print >log_file; fflush(log_file) }
        /^rt: [a-z0-9_]+ (proved$|is kept:)/ { printf "codes: %s %s, %d of %d\n", ($3 == "proved" ? "proved" : "proved before:"), $2, ++n, all; fflush() }'
}

at_tree() { cd "$room/tree" && exec "$rt" ci; }

# Proves what the program stands on, and the program, in the folder tree of the room, by `rt ci`: that takes up what it kept on this
# machine, and keeps what it proves.
prove_tree() {
    copy_sources "$room/tree" && mkfifo "$room/tmp/lines" || return 1
    progress <"$room/tmp/lines" >&2 &
    reader=$!
    in_room at_tree >"$room/tmp/lines" 2>&1 </dev/null
    set -- $?
    wait "$reader"
    [ "$1" -eq 0 ] || tail -n 20 "$room/tmp/log" >&2
    return "$1"
}

# build TREE LEVEL FILE: makes the program for a processor level from what `rt ci` proved in a tree, whose own program is that of the default level
build() {
    if [ "$2" = "$default_level" ]; then
        cp "$1/crates/codes/out/codes" "$3"
        return
    fi
    { in_room compile "$1" "$2" "$room/tmp/codes.o" </dev/null && link "$room/tmp/codes.o" "$3"; } >"$room/tmp/log" 2>&1 && return
    tail -n 20 "$room/tmp/log" >&2
    return 1
}

link() {
    "$kit/bin/rattle-link" --target x86_64-unknown-linux-gnu --toolchain "$kit/toolchain" -o "$2" "$1" "$kit/c/libos_c.a" "$kit/c/liblibc_c.a"
}

# compile TREE LEVEL FILE: checks the crate `codes` over the proved libraries of a tree, and compiles it
compile() {
    cd "$1/crates/codes" || return 1
    cpu=$2 file=$3
    set -- --crate-name codes src/main.rt --extern "std=$kit/rlibs/std.rlib" -L "dependency=$kit/rlibs"
    # shellcheck disable=SC2013
    for name in $(sed -n 's/^codes: *//p' ../../crates.txt); do
        rlib=$PWD/../$name/out/rlib/$name.rlib
        [ -d "$rlib" ] || rlib=$kit/rlibs/$name.rlib
        set -- "$@" --extern "$name=$rlib"
    done
    for folder in ../*/out/rlib; do set -- "$@" -L "dependency=$folder"; done
    exec "$kit/bin/rattle" build "$@" --antt-project "$kit/rattle/logic/antt-project.json" --logic-built "$kit/logic_built" \
        --toolchain "${toolchain:-$kit/toolchain}" --backend llvm --cpu "$cpu" --jobs 2 -o "$file"
}

# build_module TREE FILE: makes the module of the page, web/codes.wasm, from what `rt ci` proved in a tree: the LLVM module of the program for
# plain x86-64, compiled once more. The toolchain is the kit's, but for a `clang` that keeps what it is given.
build_module() {
    toolchain=$room/keeper
    mkdir -p "$toolchain/bin" && ln -sfn "$kit/toolchain/lib" "$toolchain/lib" || return 1
    for part in "$kit/toolchain/bin"/*; do ln -sf "$part" "$toolchain/bin/" || return 1; done
    rm "$toolchain/bin/clang" && printf '#!/bin/sh\nfor word; do case $word in *.bc) cp "$word" "%s" || exit 1 ;; esac; done\nexec "%s" "$@"\n' \
        "$room/module.bc" "$kit/toolchain/bin/clang" >"$toolchain/bin/clang" && chmod 755 "$toolchain/bin/clang" || return 1
    { in_room compile "$1" x86-64 "$room/tmp/codes.o" </dev/null && in_room python3 -B "$top/web/build.py" --module "$room/module.bc" "$2"; } >"$room/tmp/log" 2>&1
    set -- $?
    toolchain=
    [ "$1" -eq 0 ] || tail -n 20 "$room/tmp/log" >&2
    return "$1"
}
