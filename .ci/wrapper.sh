# shellcheck shell=bash disable=SC2154,SC2034,SC2016
# The script `codes` on a copy of the repository. In the copy's release/ are stand-ins: each says its processor level on standard
# error, and then runs the program that is checked. There is no kit on the path of these runs. `.ci/checks` reads this file; it sets
# `program` and `room`, and counts by its function `check`.

# the commands that `codes` may use, in a folder of their own
plain_path() {
    local name file
    mkdir -p "$room/bin"
    for name in awk base64 bash cat chmod cmp cp cut date dirname env find getconf git grep head ls mkdir mkfifo mktemp mv readlink rm sed sh sha256sum \
        sleep sort tail touch tr uname wc xargs; do
        file=$(command -v "$name") && ln -sf "$file" "$room/bin/$name"
    done
    # (the command may be a script that looks for the program)
    ln -sf "$(python3 -c 'import sys; print(sys.executable)')" "$room/bin/python3"
}

# the copy, with the stand-ins
copy_repository() {
    local level
    mkdir -p "$copy/release"
    git ls-files -z | xargs -0 cp --parents -p -t "$copy" || return 1
    rm -f "$copy/release"/*
    for level in $levels; do
        printf '#!/bin/sh\n[ "$1" = --version ] || echo %s >&2\nexec "%s" "$@"\n' "$level" "$program" >"$copy/release/codes-$level"
        chmod 755 "$copy/release/codes-$level"
    done
    (top=$copy && rt=true && describe "$copy/release" "$(sources_sum)")
}

# codes_there ARGUMENT..: the script of the copy, run in another folder
codes_there() { (cd "$room/elsewhere" && PATH=$room/bin RATTLE_KIT=/nowhere "$copy/codes" "$@"); }

# wrapped STATUS OUT ERR ARGUMENT..: with these arguments, on the example of standard input, the script ends with STATUS and writes the
# file OUT; of what it says on standard error one line is like the pattern ERR, and there are no other lines
wrapped() {
    local status=$1 out=$2 err=$3 got
    shift 3
    codes_there "$@" <examples/hamming.codes >"$room/out" 2>"$room/err"
    got=$?
    [ "$got" -eq "$status" ] && cmp "$room/out" "$out" && but_for_records && [ "$(wc -l <"$room/said")" -eq 1 ] && grep -qE "$err" "$room/said" && return
    echo "codes $*: status $got, wanted $status; standard error: $(head -c 400 "$room/err")"
    return 1
}

answers() { wrapped 0 examples/hamming.out "^${1:-x86-64-v[23]}\$" run; }
answers_twice() { answers && ls "$copy"/out/seen-release-* && answers; }
takes_the_level() { CODES_CPU=$1 answers "$1"; }
# refuses SAYS: runs nothing, and says so in one line with both ways to go on
refuses() { wrapped 21 "$room/nothing" "^codes: $1: ./codes prove .*; ./codes --unproved .*" run; }
other_sources='release/ was made of other sources than those in crates/'

# The copy is changed in some way, `codes` refuses, and once it is as it was `codes` answers.
a_changed_line() {
    local file=$copy/crates/lc_vec/src/lib.rt
    cp -p "$file" "$room/kept" && echo '// changed' >>"$file" && touch -r "$room/kept" "$file" && refuses "$other_sources" && cp -p "$room/kept" "$file" && answers
}
a_file_more() {
    mkdir -p "$copy/crates/lc_vec/src/out" && touch -d 2001-01-01 "$copy/crates/lc_vec/src/out/more.rt" && refuses "$other_sources" && rm -r "$copy/crates/lc_vec/src/out" && answers
}
a_file_less() {
    local file=$copy/crates/lc_vec/src/lib.rt
    mv "$file" "$room/kept" && refuses "$other_sources" && mv "$room/kept" "$file" && answers
}
a_changed_program() {
    local file
    for file in "$copy"/release/codes-*; do cp -p "$file" "$room/" && echo >>"$file"; done
    refuses 'release/codes-x86-64-v[23] is not the file that SHA256SUMS beside it names' || return 1
    for file in "$copy"/release/codes-*; do mv "$room/${file##*/}" "$file"; done
    answers
}
no_release() {
    mv "$copy/release" "$room/" && refuses 'there is no program of the sources in crates/' && mv "$room/release" "$copy/" && answers
}
# what a build leaves in crates/ changes nothing
a_folder_of_a_build() { mkdir -p "$copy/crates/lc_vec/out/rlib" && touch "$copy/crates/lc_vec/out/rlib/lib.rt" && answers && rm -r "$copy/crates/lc_vec/out"; }

# what is proved here is taken before what is released
what_is_proved_here() {
    mkdir -p "$copy/out" && cp -r "$copy/release" "$copy/out/proved" && sed -i 's/echo /echo proved /' "$copy"/out/proved/codes-* &&
        (cd "$copy/out/proved" && sha256sum codes-* >SHA256SUMS) && answers 'proved x86-64-v[23]' && rm -r "$copy/out/proved" && answers
}

# sets `as` to what runs a command as nobody where this runs as root; the status is 1 if nobody may not run the program
be_nobody() {
    as=()
    [ "$(id -u)" -eq 0 ] || return 0
    as=(setpriv --reuid=65534 --regid=65534 --clear-groups)
    # (by a shell: setpriv itself may run what nobody may not)
    "${as[@]}" sh -c 'exec "$0" --version' "$program" >/dev/null 2>&1
}

# a copy in which nothing can be written
a_copy_to_read_only() {
    local as
    be_nobody || return 0
    rm -rf "$copy/out" && chmod -R a-w "$copy"
    PATH=$room/bin:$PATH RATTLE_KIT=/nowhere "${as[@]}" "$copy/codes" run <examples/hamming.codes >"$room/out" 2>"$room/err"
    echo "status $?" >>"$room/out"
    chmod -R u+w "$copy"
    { cat examples/hamming.out && echo 'status 0'; } | cmp - "$room/out" && [ ! -e "$copy/out" ]
}

# checkpoints in a folder where nothing can be written: a line says so, above that of the program
a_folder_to_read_only() {
    local as
    be_nobody || return 0
    mkdir -p "$room/shut" && chmod 555 "$room/shut"
    (cd "$room/shut" && PATH=$room/bin:$PATH RATTLE_KIT=/nowhere "${as[@]}" "$copy/codes" run keep=yes) <examples/hamming.codes >"$room/out" 2>"$room/err"
    [ $? -eq 6 ] && [ ! -s "$room/out" ] && grep -qxF "codes: keep=yes keeps checkpoints in the current folder, where nothing can be written: $room/shut" "$room/err" &&
        grep -qx 'codes: vault fault' "$room/err"
}

# called by links to it, one of them with a blank in its name, and by a folder that CDPATH would take for another
by_links() {
    local name
    mkdir -p "$room/links/copy" && ln -sf "$copy/codes" "$room/links/codes" && ln -sf codes "$room/links/another name" || return 1
    for name in links/codes 'links/another name' copy/codes; do
        (cd "$room" && CDPATH=$room/links PATH=$room/bin RATTLE_KIT=/nowhere "$name" run) <examples/hamming.codes >"$room/out" 2>/dev/null
        cmp "$room/out" examples/hamming.out || { echo "$name"; return 1; }
    done
}

help_into_a_full_device_too() { codes_there --help >/dev/full 2>/dev/null; [ $? -eq 5 ]; }

# without a folder for temporary files nothing is built, and a script runs
no_temporary_folder() {
    local words
    for words in prove '--unproved run'; do
        # shellcheck disable=SC2086
        (cd "$room/elsewhere" && TMPDIR=/no/such PATH=$room/bin RATTLE_KIT=$room/kit "$copy/codes" $words) <examples/hamming.codes >"$room/out" 2>"$room/err"
        [ $? -eq 21 ] && [ "$(cat "$room/err")" = 'codes: no temporary file can be made in /no/such' ] || { head -c 300 "$room/err"; return 1; }
    done
    TMPDIR=/no/such answers
}

# at a terminal it says that it waits, and answers after Ctrl-D
at_a_terminal() {
    python3 -B - "$copy/codes" >"$room/out" <<'PY'
import os, pty, sys
try:
    child, terminal = pty.fork()
except OSError:
    sys.exit(3)  # there are no terminals here
if child == 0:
    os.execv(sys.argv[1], [sys.argv[1], "run"])
os.write(terminal, b"Weight([1]);\n\x04")
said = b""
try:
    while piece := os.read(terminal, 4096):
        said += piece
except OSError:
    pass
os.waitpid(child, 0)
sys.stdout.write(said.decode())
PY
    [ $? -ne 3 ] || return 0
    grep -q '^codes: type a script, and end it with Ctrl-D' "$room/out" && grep -qx $'1\r' "$room/out"
}

# over checkpoints `run keep=yes` says that it overwrites them, and at a terminal it asks: without a yes they stay as they are
asks_about_checkpoints() {
    local slot=$room/elsewhere/codes.slot0
    echo 'C := HammingCode(3,GF(2)); MinimumDistance(C);' >"$room/script"
    codes_there run keep=yes <"$room/script" >/dev/null 2>&1 && cp "$slot" "$room/kept" && touch -d 2001-01-01 "$slot" || return 1
    codes_there run keep=yes <"$room/script" 2>&1 >/dev/null | grep -q '^codes: run overwrites the checkpoints of a session, the last after [0-9]* blocks$' || return 1
    echo 'not a checkpoint' >"$slot"
    rm -f "$room/elsewhere/codes.slot1"
    [ "$(answered n)" = 2 ] && [ "$(cat "$slot")" = 'not a checkpoint' ] && [ "$(answered y)" = 0 ] && cmp "$slot" "$room/kept" && rm "$room/elsewhere"/codes.slot*
}

# answered TEXT: the status of `run keep=yes` at a terminal, where this is typed
answered() {
    python3 -B - "$copy/codes" "$room/script" "$room/elsewhere" "$1" <<'PY'
import os, pty, sys
program, script, folder, answer = sys.argv[1:]
child, terminal = pty.fork()
if child == 0:
    os.chdir(folder)
    os.dup2(os.open(script, os.O_RDONLY), 0)
    os.execv(program, [program, "run", "keep=yes"])
os.write(terminal, answer.encode() + b"\n")
said = b""
try:
    while piece := os.read(terminal, 4096):
        said += piece
except OSError:
    pass
status = os.waitstatus_to_exitcode(os.waitpid(child, 0)[1])
print(status if b"Overwrite? [y/N]" in said else said)
PY
}

# refused N REASON ARGUMENT..: the script says on standard error that word N is refused, and why, and nothing else
refused() {
    local number=$1 reason=$2
    shift 2
    codes_there "$@" <examples/hamming.codes >"$room/out" 2>"$room/err"
    [ $? -eq 2 ] && [ ! -s "$room/out" ] && printf 'codes: word %s refused\ncodes: %s\n' "$number" "$reason" | cmp - "$room/err" && return
    echo "codes $*: $(head -c 400 "$room/err")"
    return 1
}

# mistakes: each ends with its status, and says what to do, though there is neither a program nor a kit
mistakes() {
    mv "$copy/release" "$room/"
    for word in '-h x' install 'install a b' 'prove x' 'test x' explain 'pretty x' 'page a b' '--unproved run keep=yes'; do
        # shellcheck disable=SC2086
        codes_there $word >"$room/out" 2>"$room/err" </dev/null
        [ $? -eq 2 ] && [ ! -s "$room/out" ] && grep -q '^codes: ' "$room/err" || { echo "codes $word"; return 1; }
    done
    wrapped 4 "$room/nothing" '^codes: no.such can.t be read$' explain no.such && wrapped 4 "$room/nothing" '^codes: no.such can.t be read$' --unproved explain no.such &&
        wrapped 20 "$room/nothing" '^codes: the Rattle kit is not here' prove && wrapped 20 "$room/nothing" '^codes: the Rattle kit is not here' --unproved run &&
        wrapped 21 "$room/nothing" '^codes: test needs a clone by git' test &&
        codes_there --help >"$room/out" && grep -q 'codes prove' "$room/out" && reasons && mv "$room/release" "$copy/"
}

# what is written below the line of the rules
reasons() {
    local follow='after run come workers=N, round=N, budget=N, keep=yes and slice=N, or none of them' blocks='budget is a number from 0 to 1099511627776'
    local commands='a command is run, resume, check, summary, part or join, or explain, pretty, page, install, test or prove; see ./codes --help'
    refused 0 'a command is missing: run, resume, check, summary, part or join; see ./codes --help' &&
        refused 0 "$commands" nonsense && refused 0 "$commands" --unproved nonsense &&
        refused 0 'the command is written run' Run && refused 0 'the command is written explain' --explain my.codes &&
        refused 0 'a command comes first: ./codes run workers=2 < FILE' workers=2 &&
        refused 0 'run reads a script from standard input: ./codes run < my.codes' my.codes &&
        refused 1 'run reads a script from standard input: ./codes run < my.codes' run my.codes &&
        refused 1 'run reads a script from standard input: ./codes run < my.codes' --unproved run my.codes &&
        refused 1 "run reads a script from standard input: ./codes run < 'my own.codes'" run 'my own.codes' &&
        refused 1 "run reads a script from standard input: ./codes run < 'it'\\''s.codes'" run "it's.codes" &&
        refused 1 'run reads standard input anyway: ./codes run < FILE' run - &&
        refused 1 'check takes no argument, and reads a certificate from standard input: ./codes check < my.json' check my.json &&
        refused 0 '--version stands alone' --version x &&
        refused 1 'write budget=1000000' run budget=1e6 && refused 1 'write budget=1048576' run budget=2^20 && refused 1 'write budget=1000' run budget=1,000 &&
        refused 1 'write budget=7' run budget=007 && refused 1 'write budget=5' run Budget=5 && refused 1 "$blocks, in digits alone" run budget=1k &&
        refused 1 "$blocks" run budget=2199023255552 && refused 1 'budget takes a value after =, without blanks: budget=N' run budget 5 &&
        refused 2 'write workers=2' run keep=yes --workers=2 && refused 1 'write workers=4' resume -j4 && refused 1 'workers is a number from 1 to 256' run workers=0 &&
        refused 1 'round is a number from 1 to 1048576' run round=1048577 && refused 1 'write round=65536' resume round=2^16 &&
        refused 1 "write workers=$(getconf _NPROCESSORS_ONLN)" run workers=auto && refused 2 'workers is there already' run workers=2 workers=2 &&
        refused 1 'write keep=yes' run keep=on && refused 1 'keep takes a value after =, without blanks: keep=yes' run keep &&
        refused 1 'slice needs keep=yes, since the session goes on from its checkpoint' run slice=5 &&
        refused 1 "$follow" run seed=5 && refused 1 "$follow" run speed=5 &&
        refused 1 'progress comes before the command: ./codes progress=no run < FILE' run progress=no && refused 1 'summary needs seed=N: ./codes summary seed=1' summary
}

# The script refuses what the program refuses, with its line, and nothing else.
refuses_as_the_program() {
    local words status
    while read -r words; do
        # shellcheck disable=SC2086
        (cd "$room/elsewhere" && "$program" $words) >"$room/out" 2>"$room/wanted" </dev/null
        status=$?
        # shellcheck disable=SC2086
        codes_there $words >"$room/out" 2>"$room/err" </dev/null
        [ $? -eq $status ] && { [ $status -ne 2 ] || [ "$(head -n 1 "$room/err")" = "$(cat "$room/wanted")" ]; } && continue
        echo "codes $words: wanted status $status and '$(head -n 1 "$room/wanted")', and standard error begins with '$(head -n 1 "$room/err")'"
        return 1
    done <<'LIST'

run
run workers=1
run workers=256 budget=0
run workers=257
run workers=0
run workers=02
run workers=+2
run workers=2 workers=2
run round=1
run round=1048576 workers=2
run round=0
run round=1048577
run round=
run round=2 round=2
run budget=1099511627776
run budget=1099511627777
run budget=18446744073709551616
run budget=99999999999999999999999
run budget= keep=no
run budget
run budget=x
run keep=no slice=3
run slice=3
run slice=0 keep=yes
run keep=yes keep=yes
run keep=YES
run slice=3 workers=1
run seed=1
run Workers=2
run =
run =1
run workers==1
run - -
resume seed=1
resume budget=5 keep=no slice=7
check x
check budget=1
check round=1
summary
summary seed=1 keep=yes
part
part from=0
part from=0 count=1
part from=0 count=0
part count=1 from=0
part from=0 from=0
part from=0 count=1 workers=256
part from=0 count=1 workers=257
part from=0 count=1 workers=1 workers=1
part from=00 count=1
part from=1099511627777 count=1
part from=1099511627776 count=1099511627776
part from=0 count=1 budget=1
join
join budget=0
join budget=1 budget=1
join budget=x
join workers=1
summary seed=18446744073709551616
summary seed=18446744073709551615 seed=1
summary budget=1 workers=2
summary round=7
summary round=7 seed=1
summary seed=01
summary seed=00
summary budget=0 seed=18446744073709551615
Run
checks
--version --version
-- run
LIST
    codes_there run $'budget=\xff' >/dev/null 2>"$room/err"
    [ "$(head -n 1 "$room/err")" = 'codes: word 0 refused' ]
}

installs() {
    local level
    wrapped 0 "$room/nothing" '^codes: installed .*/bin/codes, for x86-64-v[23], and its manual page$' install "$room/prefix" &&
        cmp "$room/prefix/share/man/man1/codes.1" docs/codes.1 && level=$(sed -nE 's/.* for (x86-64-v.), .*/\1/p' "$room/said") && cmp "$room/prefix/bin/codes" "$copy/release/codes-$level"
}

# stand-ins for the commands of docs/CLUSTER.md, where they are missing: they run one job after the other
cluster_commands() {
    mkdir -p "$room/cluster"
    cat >"$room/cluster/parallel" <<'SH'
#!/bin/sh
# parallel --joblog FILE --resume-failed COMMAND.. :::: LIST; {} among the words of the command is a line of the list
status=0 command=''
shift 3
while [ "$1" != :::: ]; do command="$command $1" && shift; done
while read -r line; do sh -c "$(echo "$command" | sed "s|{}|'$line'|")" </dev/null || status=1; done <"$2"
exit $status
SH
    cat >"$room/cluster/sbatch" <<'SH'
#!/bin/sh
# sbatch --array=1-N SCRIPT ARGUMENT..
most=${1#--array=1-} task=0 SLURM_SUBMIT_DIR=$PWD SLURM_CPUS_PER_TASK=2 SLURM_ARRAY_TASK_COUNT=$most
export SLURM_SUBMIT_DIR SLURM_CPUS_PER_TASK SLURM_ARRAY_TASK_COUNT
shift
while [ $task -lt "$most" ]; do
    task=$((task + 1))
    SLURM_ARRAY_TASK_ID=$task sh "$@" || exit
done
SH
    chmod 755 "$room/cluster"/*
    if command -v parallel >/dev/null; then rm "$room/cluster/parallel"; fi
}

# block N: the N-th block `sh` of docs/CLUSTER.md
block() { awk -v wanted="$1" '/^```/ { inside = /^```sh$/ && ++n == wanted; next } inside' docs/CLUSTER.md; }

# the blocks of docs/CLUSTER.md as they stand, at the top of the copy: folders, their texts by `parallel`, and by Slurm once more; and
# one search in parts, by both
cluster_recipes() {
    cluster_commands
    (cd "$copy" && PATH=$room/cluster:$PATH && { block 1 && block 2; } | sh -e >"$room/texts" && [ "$(wc -l <folders.txt)" -eq 4 ] &&
        [ "$(cut -d ' ' -f 1,2 "$room/texts" | sort | tr '\n' ' ')" = 'distance 21 distance 27 distance 31 distance 7 ' ] &&
        cat jobs/*/text | cmp - "$room/texts" && rm jobs/*/text && block 3 | sh -e && cat jobs/*/text | cmp - "$room/texts" &&
        block 4 | sh -e >"$room/joined" && "$program" run <shared/script.codes 2>/dev/null | cmp - "$room/joined" &&
        rm -r shared/parts shared/text && block 5 | sh -e && CODES=$PWD/codes tools/cluster/join shared && cmp shared/text "$room/joined")
}

# what goes before the command: no record lines, all of them, and a word that is refused
shows_progress_as_asked() {
    local how
    echo 'C := HammingCode(3,GF(2)); MinimumDistance(C);' >"$room/script"
    "$program" run <"$room/script" >"$room/wanted" 2>/dev/null || return 1
    for how in no lines; do
        codes_there "progress=$how" run <"$room/script" >"$room/out" 2>"$room/err" && cmp "$room/out" "$room/wanted" || return 1
        [ "$(grep -c '^query 0 blocks' "$room/err")" -eq "$([ "$how" = no ] && echo 0 || echo 2)" ] || { cat "$room/err"; return 1; }
    done
    codes_there progress=some run <"$room/script" >"$room/out" 2>"$room/err"
    [ $? -eq 2 ] && [ ! -s "$room/out" ] && [ "$(cat "$room/err")" = 'codes: progress is line, lines or no' ]
}

explains_without_a_kit() { codes_there explain "$PWD/tests/explain/near_name.codes" >"$room/out" 2>"$room/err"; [ $? -eq 1 ] && cmp "$room/out" tests/explain/near_name.out && grep -q 'did you mean' "$room/err"; }

# without any program
prints_prettily() { echo '[[1,0],[0,1]]' | codes_there pretty >"$room/out" && printf '  1 .\n  . 1\n' | cmp - "$room/out"; }

# the page: a stand-in for a browser is given a copy with the bytes of the script in it; without one the path is printed
shows_the_page() {
    local file=$room/"my \"own\" <script>.codes" shown
    printf 'GF(2);\r\n# \377' >"$file"
    printf '#!/bin/sh\ncp "$1" "%s"\n' "$room/shown.html" >"$room/browser" && chmod 755 "$room/browser"
    BROWSER=$room/browser codes_there page "$file" >"$room/out" 2>&1 && [ ! -s "$room/out" ] &&
        shown=$(sed -n 's/^<script type="application\/octet-stream" id="given" data-name="my &quot;own&quot; &lt;script>.codes">\(.*\)<\/script>$/\1/p' "$room/shown.html") &&
        echo "$shown" | base64 -d | cmp - "$file" && sed "s/^<script type=[^>]* id=\"given\" .*$/<!-- given -->/" "$room/shown.html" | cmp - web/index.html &&
        [ "$(BROWSER='' DISPLAY='' WAYLAND_DISPLAY='' codes_there page)" = "codes: open $copy/web/index.html in a browser" ] &&
        [ "$(BROWSER='' DISPLAY='' WAYLAND_DISPLAY='' codes_there page "$file")" = "codes: open $copy/out/page.html in a browser" ] &&
        wrapped 4 "$room/nothing" '^codes: no.such can.t be read$' page no.such
}

# a kit whose command only waits: `codes` is stopped, and leaves neither that command nor a file
a_build_that_is_stopped() {
    local pid left=0
    mkdir -p "$room/kit/bin" "$room/temporary"
    printf '#!/bin/sh\necho $$ >"%s"\nexec sleep 1000\n' "$room/waits" >"$room/kit/bin/rt" && chmod 755 "$room/kit/bin/rt"
    for words in prove '--unproved run'; do
        rm -f "$room/waits"
        # shellcheck disable=SC2086
        (cd "$room/elsewhere" && TMPDIR=$room/temporary PATH=$room/bin RATTLE_KIT=$room/kit exec "$copy/codes" $words) <examples/hamming.codes >/dev/null 2>&1 &
        pid=$!
        while kill -0 "$pid" 2>/dev/null && [ ! -s "$room/waits" ]; do sleep 0.1; done
        kill "$pid"
        wait "$pid"
        [ $? -eq 143 ] && [ -s "$room/waits" ] && ! kill -0 "$(cat "$room/waits")" 2>/dev/null && [ -z "$(ls "$room/temporary")" ] || { left=1; echo "codes $words left $(ls "$room/temporary")"; }
    done
    return $left
}

check_wrapper() {
    local copy=$room/copy
    mkdir -p "$room/elsewhere"
    : >"$room/nothing"
    plain_path
    check 'codes: a copy with stand-ins is made' copy_repository
    check 'codes: without a kit the released program answers, and again' answers_twice
    check 'codes: CODES_CPU takes the program of that level' takes_the_level x86-64-v2
    check 'codes: CODES_CPU takes the program of the other level' takes_the_level x86-64-v3
    check 'codes: sources with a changed line are not answered' a_changed_line
    check 'codes: sources with one file more are not answered' a_file_more
    check 'codes: sources with one file less are not answered' a_file_less
    check 'codes: a released file that was changed is not run' a_changed_program
    check 'codes: without release/ nothing is run' no_release
    check 'codes: a folder out/ of a crate is no source' a_folder_of_a_build
    check 'codes: what was proved here is taken' what_is_proved_here
    check 'codes: a copy that can only be read answers' a_copy_to_read_only
    check 'codes: checkpoints in a folder that can only be read' a_folder_to_read_only
    check 'codes: it may be called by a link' by_links
    check 'codes: --help into a full device' help_into_a_full_device_too
    check 'codes: at a terminal it says that it waits' at_a_terminal
    check 'codes: it asks before it overwrites checkpoints' asks_about_checkpoints
    check 'codes: mistakes end at once' mistakes
    check 'codes: it refuses what the program refuses' refuses_as_the_program
    check 'codes: progress is shown as was asked' shows_progress_as_asked
    check 'codes: install' installs
    check 'codes: explain' explains_without_a_kit
    check 'codes: pretty' prints_prettily
    check 'codes: page' shows_the_page
    check 'codes: a build that is stopped leaves nothing' a_build_that_is_stopped
    check 'codes: without a folder for temporary files' no_temporary_folder
    check 'docs/CLUSTER.md: its commands, at the top of the copy' cluster_recipes
}
