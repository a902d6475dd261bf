# How the repository's checks run the program on scripts. `.ci/checks` reads this file; it sets `program`, the path of the
# program, and `room`, an empty folder for what it writes, and counts by its function `check`.

# what was written to $room/err but for the lines of records, as $room/said
but_for_records() { grep -vxE 'query [0-9]+ blocks [0-9]+ bound [0-9]+ best [0-9]+' "$room/err" >"$room/said" || :; }

# gives SCRIPT OUT STATUS ERR ARGUMENT..: on that script, with these arguments, the program writes exactly the bytes of OUT and ERR,
# the lines of records apart, and ends with STATUS. The limit only ends what would hang: on a busy machine no script took a tenth of it.
gives() {
    local script=$1 out=$2 status=$3 err=$4 got
    shift 4
    timeout 60 "$program" "$@" <"$script" >"$room/out" 2>"$room/err"
    got=$?
    [ "$got" -eq "$status" ] || echo "status $got, wanted $status"
    cmp "$room/out" "$out" || echo "standard output: $(head -c 200 "$room/out" | head -n 5)"
    but_for_records
    cmp "$room/said" "$err" || echo "standard error: $(head -c 200 "$room/said")"
    [ "$got" -eq "$status" ] && cmp -s "$room/out" "$out" && cmp -s "$room/said" "$err"
}

# stored FRONT: the case of the files FRONT.codes (the script), FRONT.out (the text), and where they are there FRONT.status
# (the status, else 0), FRONT.err (standard error, else nothing) and FRONT.arguments (one argument a line, else the one argument `run`)
stored() {
    local front=$1 status=0 err=$room/nothing arguments=(run)
    [ -f "$front.status" ] && status=$(cat "$front.status")
    [ -f "$front.err" ] && err=$front.err
    [ -f "$front.arguments" ] && mapfile -t arguments <"$front.arguments"
    gives "$front.codes" "$front.out" "$status" "$err" ${arguments[@]+"${arguments[@]}"}
}

# each file of a folder belongs to a script there
nothing_stands_alone() {
    local file
    for file in "$1"/*; do
        [ -d "$file" ] && continue
        case $file in
        *.codes) [ -f "${file%.codes}.out" ] || { echo "$file has no .out"; return 1; } ;;
        *.out | *.status | *.err | *.arguments) [ -f "${file%.*}.codes" ] || { echo "$file has no .codes"; return 1; } ;;
        *.md | *.list) ;;
        *) echo "$file is no file of a case"; return 1 ;;
        esac
    done
}

# check_folder FOLDER NAME: each case of the folder; NAME is what it is called in a line of what failed
check_folder() {
    local script
    check "$2: each file belongs to a script" nothing_stands_alone "$1"
    for script in "$1"/*.codes; do
        check "$2/$(basename "$script" .codes)" stored "${script%.codes}"
    done
}

# the rows of the documents of tests/rows, each with files of its own in $room/rows
check_rows() {
    check 'tests/rows: each row has its blocks' python3 -B tools/rows.py tests/rows "$room/rows"
    check_folder "$room/rows" tests/rows
}

# from_document FILE FRONT: writes each fenced block `codes` of a document to FRONT-N.codes and the block `text` behind it to
# FRONT-N.out; fails where a block `codes` has none
from_document() {
    awk -v front="$2" '
        /^```/ && into != "" { close(into); into = ""; next }
        /^```codes$/ { if (waits) exit 1; waits = 1; n++; into = front "-" n ".codes"; printf "" > into; next }
        /^```text$/ && waits { waits = 0; into = front "-" n ".out"; printf "" > into; next }
        /^```/ { into = "/dev/null"; next }
        into != "" { print > into }
        END { if (waits) { print "a block `codes` has no block `text` behind it"; exit 1 } }
    ' "$1"
}

# the examples of a document; the status is 1 where the text ends with a fault line
check_document() {
    local document=$1 front n=1
    front=$room/$(basename "$document")
    check "$document: each script has its text" from_document "$document" "$front"
    while [ -f "$front-$n.codes" ]; do
        if [ -f "$front-$n.out" ] && tail -n 1 "$front-$n.out" | grep -q '^fault '; then echo 1 >"$front-$n.status"; fi
        check "$document, example $n" stored "$front-$n"
        n=$((n + 1))
    done
}

# repeated TEXT COUNT
repeated() {
    local i
    for ((i = 0; i < $2; i++)); do printf '%s' "$1"; done
}

# made NAME STATUS TEXT: the case of the script that was written to $room/NAME.codes
made() {
    printf '%s' "$3" >"$room/$1.out"
    [ "$2" -ne 12 ] || echo 'codes: input too long' >"$room/$1.err"
    echo "$2" >"$room/$1.status"
    check "$4" stored "$room/$1"
}

# scripts at the limits of length and of nesting
check_limits() {
    local most=1048576
    printf '%*s' "$most" '' >"$room/blanks.codes"
    made blanks 0 '' '1,048,576 spaces'
    printf '%*s' $((most + 1)) '' >"$room/too_many_blanks.codes"
    made too_many_blanks 12 '' '1,048,577 spaces'
    { yes 'Weight([]);' | head -n $((most / 11)) | tr -d '\n'; printf '%*s' $((most % 11)) ''; } >"$room/weights.codes"
    yes 0 | head -n $((most / 11)) >"$room/weights.text"
    made weights 0 "$(cat "$room/weights.text")"$'\n' 'a statement repeated up to the greatest length'
    { cat "$room/weights.codes"; echo; } >"$room/too_many_weights.codes"
    made too_many_weights 12 '' 'a statement repeated beyond the greatest length'

    { repeated 'DualCode(' 30; printf 'RepetitionCode(3,GF(2))'; repeated ')' 30; printf ';'; } >"$room/deep_calls.codes"
    made deep_calls 0 $'code [3,1] GF(2)\n' 'calls 32 deep'
    { repeated 'DualCode(' 31; printf 'RepetitionCode(3,GF(2))'; repeated ')' 31; printf ';'; } >"$room/too_deep_calls.codes"
    made too_deep_calls 1 "fault 42 at $((31 * 9 + 19))"$'\n' 'calls 33 deep'
    { repeated '[' 32; printf '1'; repeated ']' 32; printf ';'; } >"$room/deep_lists.codes"
    made deep_lists 1 $'fault 45 at 30\n' 'lists 32 deep'
    { repeated '[' 33; printf '1'; repeated ']' 33; printf ';'; } >"$room/too_deep_lists.codes"
    made too_deep_lists 1 $'fault 42 at 32\n' 'lists 33 deep'

    awk 'BEGIN {
        printf "C := GeneratorMatCode(["
        for (i = 0; i < 300; i++) {
            printf "%s[", (i > 0 ? "," : "")
            for (j = 0; j < 255; j++) printf "%s%d", (j > 0 ? "," : ""), (j == i % 255)
            printf "]"
        }
        print "],GF(2)); C; DualCode(C);"
    }' >"$room/large_matrix.codes"
    made large_matrix 0 $'code [255,255] GF(2)\ncode [255,0] GF(2)\n' 'a matrix of 300 rows of 255 symbols'
}

# ends STATUS SAYS COMMAND..: the command ends with the status, and standard error is exactly the line SAYS
ends() {
    local status=$1 says=$2 got
    shift 2
    "$@" >"$room/out" 2>"$room/err"
    got=$?
    [ "$got" -eq "$status" ] || { echo "status $got, wanted $status"; return 1; }
    but_for_records
    { [ -z "$says" ] || echo "$says"; } | cmp - "$room/said" || { echo "standard error: $(head -c 200 "$room/said")"; return 1; }
}

reads_a_folder() { "$program" run </; }
writes_to_a_full_device() { echo 'GF(2);' | "$program" run >/dev/full; }
writes_nothing_to_a_full_device() { echo 'x := GF(2);' | "$program" run >/dev/full; }
asks() { "$program" "$1" </dev/null; }
asks_into_a_full_device() { "$program" --help </dev/null >/dev/full; }

asks_in_other_bytes() { "$program" $'\xff' </dev/null; }

a_source_that_fails() { ends 4 'codes: source fault' reads_a_folder && [ ! -s "$room/out" ]; }
a_sink_that_fails() { ends 5 'codes: sink fault' writes_to_a_full_device; }
a_sink_that_is_not_used() { ends 0 '' writes_nothing_to_a_full_device; }
a_word_that_is_no_text() { ends 2 'codes: word 0 refused' asks_in_other_bytes && [ ! -s "$room/out" ]; }
help_into_a_full_device() { ends 5 'codes: sink fault' asks_into_a_full_device; }
help_says_where_to_look() { ends 0 '' asks --help && grep -q 'codes run' "$room/out" && grep -q 'docs/SCRIPT.md' "$room/out"; }
# the version is the last one that CHANGELOG.md has
version_is_one_line() { ends 0 '' asks --version && cmp "$room/out" - <<<"codes $(sed -n 's/^## \([0-9.]*\), .*/\1/p' CHANGELOG.md | head -n 1)"; }

# where there is a C compiler
refuses_memory() { ! command -v cc gcc clang >/dev/null || python3 -B tests/refused_memory.py "$program" 24; }

check_outside() {
    check 'a source that fails: status 4' a_source_that_fails
    check 'a sink that fails: status 5' a_sink_that_fails
    check 'a text of no bytes into a full device: status 0' a_sink_that_is_not_used
    check 'a word that is no UTF-8: status 2' a_word_that_is_no_text
    check '--help names the command and the documents' help_says_where_to_look
    check '--help into a full device: status 5' help_into_a_full_device
    check '--version is one line, with the version of CHANGELOG.md' version_is_one_line
}

# agrees KIND COUNT: on so many scripts that are made at random the program and the reference program give the same
agrees() { check "$2 scripts, $1: the program and tools/reference.py agree" python3 -B tools/compare.py "$program" "$1" "$2"; }

check_against_reference() {
    check 'tools/reference.py gives the stored texts' python3 -B tools/check_reference.py examples "$room/rows"
    check 'calls with two refusals each: the first of them is told' python3 -B tools/refusal_order.py "$program"
    check 'searches over each field at lengths around 64, 128 and 192: the program and the reference program agree' python3 -B tools/kernel_codes.py "$program"
    agrees valid 500
    agrees refused 400
    agrees unfit 400
    agrees cut 250
    agrees altered 250
    agrees noise 200
    agrees searched 500
    check 'nearest words under budgets: the program and the reference program agree' python3 -B tests/nearest_words.py "$program"
    agrees near 400
}

check_certificates() {
    check 'tools/check_certificate.py says what the stored texts say' python3 -B tools/compare_certificates.py --stored "$room/rows"
    check 'tools/table.py on examples/codes.list' python3 -B tests/table.py "$program"
    check 'the gallery: `codes` prints each certificate, and both programs accept it' python3 -B tools/gallery.py --check "$program"
    check '3,000 altered certificates: the program and tools/check_certificate.py agree' python3 -B tools/compare_certificates.py "$program" 3000
}

# certificates by construction
check_trees() {
    check 'each line that `AlternantCertificate` prints is accepted by both programs' forms_are_accepted
    check 'trees at the limits, by tools/check_certificate.py' python3 -B tests/limits_of_trees.py python3 -B tools/check_certificate.py
    check '1,000 altered trees: tools/check_certificate.py and the reference program agree' python3 -B tools/compare_certificates.py - --trees 1000
    check 'the tree of docs/FORMATS.md is accepted' tree_of_the_formats
    check 'a tree, as tools/pretty.py shows it' tree_is_pretty
    check 'tools/tree_certificate.py writes a tree, or says why there is none' tree_writer_says_why
    check 'trees at the limits' python3 -B tests/limits_of_trees.py "$program" check
    check '10,000 altered trees: the program and tools/check_certificate.py agree' python3 -B tools/compare_certificates.py "$program" --trees 10000
}

tree_of_the_formats() {
    awk '/^```json$/ { inside = 1; next } /^```$/ { inside = 0 } inside' docs/FORMATS.md >"$room/tree.json"
    [ "$(python3 -B tools/check_certificate.py "$room/tree.json")" = 'accepted distance 4' ]
}

# says of each line of the stored texts that begins as a certificate by construction does what both programs say of it
forms_are_accepted() {
    local line distance count=0
    while IFS= read -r line; do
        printf '%s\n' "$line" >"$room/form.json"
        distance=${line##*\"distance\":}
        [ "$("$program" check <"$room/form.json")" = "accepted distance ${distance%%,*}" ] || { echo "codes: $line"; return 1; }
        [ "$(python3 -B tools/check_certificate.py "$room/form.json")" = "accepted distance ${distance%%,*}" ] || { echo "check_certificate.py: $line"; return 1; }
        count=$((count + 1))
    done < <(cat examples/by_construction.out "$room"/rows/alternant_certificate*.out | grep '^{"claim":{"kind":"alternant"')
    [ "$count" -ge 18 ] || { echo "only $count lines"; return 1; }
}

tree_is_pretty() { python3 -B tools/pretty.py <examples/certificates/tree_subcode.json | cmp - tests/pretty/tree_subcode.out; }

# what tools/tree_certificate.py makes of a script
writes_a_tree() { echo "$1" | python3 -B tools/tree_certificate.py "$program" budget=64; }

tree_writer_says_why() {
    local why=tree_certificate.py:
    ends 0 '' writes_a_tree 'MinimumDistance(ReedSolomonCode(4,3)); GF(5);' && cmp "$room/out" - <<<'{"claim":{"kind":"alternant","locator":5,"multipliers":[1,2,4,3],"points":[1,2,4,3],"r":2},"distance":3,"field":5,"version":2,"word":[1,0,3,4]}' &&
        ends 1 "$why the tree proves that the distance is 3 at least, and the lightest word found has weight 5" writes_a_tree 'BCHCode(17,3,GF(2));' &&
        ends 1 "$why the code has dimension 0, so that there is no minimum distance" writes_a_tree 'NullCode(3,GF(2));' &&
        ends 1 "$why fault 44 at 0" writes_a_tree 'x;' && ends 1 "$why no statement of the script has a code" writes_a_tree 'GF(2);' &&
        ends 2 'usage: tree_certificate.py [PROGRAM] [budget=N] < SCRIPT' python3 -B tools/tree_certificate.py a b
}

# explains FILE: what tools/explain.py writes of a script or a certificate, on both outputs, and its status
explains() {
    local got front=${1%.*}
    python3 -B tools/explain.py "$program" "$1" >"$room/out" 2>"$room/err"
    got=$?
    [ "$got" -eq "$(cat "$front.status")" ] || { echo "status $got"; return 1; }
    but_for_records
    cmp "$room/out" "$front.out" && diff "$room/said" "$front.err"
}

# what tools/pretty.py makes of the text of a script
is_pretty() { "$program" run <"$1.codes" 2>/dev/null | python3 -B tools/pretty.py | cmp - "$1.out"; }

check_explanations() {
    local file
    for file in tests/pretty/*.codes; do check "${file%.codes}" is_pretty "${file%.codes}"; done
    for file in tests/explain/*.codes tests/explain/*.json; do check "${file%.*}" explains "$file"; done
    check 'tools/explain.py on signs, names of other systems and scripts made at random' python3 -B tests/explanations.py "$program"
    check 'a call of tools/residue_code.py for each length' python3 -B tests/residue_codes.py "$program"
    check 'tools/plot.py on weight distributions' python3 -B tests/plots.py "$program"
    check 'the plans of tools/plan.py beside searches over each field' python3 -B tests/plans.py "$program"
    check 'the line of progress at a terminal' python3 -B tests/progress.py "$program"
    check 'the second checker takes a file' second_checker_takes_a_file
    check 'the programs for people are good filters' are_good_filters
}

# the programs for people as filters: a pipe whose reader has gone ends them silently; where a stream fails they say so in a line, and
# end with 4 or 5 as the program does; and a script that is too long ends them with 12
are_good_filters() {
    local certificate=examples/certificates/golay_23.json waits='import sys; sys.stdin.buffer.read(1)' line
    yes '[[1,0,1]]' | head -n 20000 >"$room/matrices"
    echo '1 0 1' >"$room/matrix"
    while read -r line; do
        # shellcheck disable=SC2086
        python3 -B tools/$line <"$room/matrices" 2>"$room/err" | python3 -c "$waits"
        [ ! -s "$room/err" ] || { echo "tools/$line, in a pipe: $(tail -n 1 "$room/err")"; return 1; }
        # shellcheck disable=SC2086
        python3 -B tools/$line <"$room/matrices" >/dev/full 2>"$room/err"
        [ $? -eq 5 ] && [ "$(grep -vc '^query ' "$room/err")" = 1 ] || { echo "tools/$line, into a full device: $(tail -n 1 "$room/err")"; return 1; }
    done <<LIST
pretty.py
explain.py $program examples/hamming.codes
explain.py $program $certificate
check_certificate.py $certificate
check_certificate.py --help
residue_code.py 23
from_matrix.py $room/matrix
plan.py --help
LIST
    head -c 9999999 /dev/zero | tr '\0' ' ' >"$room/long"
    ends 12 'codes: input too long' python3 -B tools/explain.py "$program" "$room/long" &&
        ends 4 'codes: source fault' python3 -B tools/pretty.py <&- && ends 4 'codes: source fault' python3 -B tools/explain.py "$program" - <&- &&
        ends 4 "standard input can't be read" python3 -B tools/check_certificate.py <&-
}

# tools/check_certificate.py on a file, on standard input, with --help, and with mistakes
second_checker_takes_a_file() {
    local checker='python3 -B tools/check_certificate.py' file=examples/certificates/golay_23.json
    [ "$($checker $file)" = 'accepted distance 7' ] && [ "$($checker - <$file)" = 'accepted distance 7' ] && [ "$($checker --quiet <$file)" = 'accepted distance 7' ] && [ "$($checker --cost $file)" = 'cost 596' ] &&
        $checker --help | grep -q 'check_certificate.py \[--quiet\] \[FILE\]' && ends 4 'no.such: No such file or directory' $checker no.such &&
        ends 2 'usage: check_certificate.py [--quiet] [--cost] [FILE]' $checker a b
}

# the functions for GAP, by a stand-in for it that reads their language
agrees_with_a_stand_in_for_gap() { CODES=$program timeout 600 python3 -B tests/bridges/gap_stand_in.py tests/bridges/with_guava.g >"$room/gap" && agreed "$room/gap"; }
# whether a test of a bridge came to its end, and found nothing
agreed() { ! grep -E 'failed|Error' "$1" && grep -q '^done$' "$1"; }

# the functions for Sage, by a stand-in for it
agrees_with_a_stand_in() { CODES=$program timeout 300 python3 -B tests/bridges/without_sage.py; }

# the functions for GUAVA and Sage, where these are installed
agrees_with_guava() { CODES=$program timeout 3000 gap -q <tests/bridges/with_guava.g >"$room/gap" 2>&1; agreed "$room/gap"; }
agrees_with_sage() { CODES=$program timeout 6000 sage tests/bridges/with_sage.py >"$room/sage" 2>&1; agreed "$room/sage"; }

# the functions for Python
answers_python() { CODES=$program timeout 300 python3 -B tests/bridges/with_python.py; }

check_bridges() {
    check 'tools/python/codes_bridge.py' answers_python
    check 'tools/from_matrix.py' python3 -B tests/from_matrix.py "$program"
    check 'tools/gap/codes.g, by a stand-in for GAP' agrees_with_a_stand_in_for_gap
    check 'tools/sage/codes.py, by a stand-in for Sage' agrees_with_a_stand_in
    if command -v gap >/dev/null && echo 'LoadPackage("guava");' | gap -q 2>/dev/null | grep -q true; then
        check 'tools/gap/codes.g and GUAVA agree' agrees_with_guava
    fi
    if command -v sage >/dev/null; then check 'tools/sage/codes.py and Sage agree' agrees_with_sage; fi
}

# two jobs of tools/cluster beside each other, by GNU parallel if it is installed, give the texts of their scripts
jobs_give_texts() {
    local list=$room/folders d
    for d in 5 7; do
        mkdir -p "$room/jobs/$d"
        echo "MinimumDistance(BCHCode(63,$d,GF(2)));" >"$room/jobs/$d/script.codes"
        echo "$room/jobs/$d"
    done >"$list"
    export CODES=$program
    if command -v parallel >/dev/null; then parallel -j 2 tools/cluster/job {} budget=1000 :::: "$list"; else xargs -P 2 -I{} tools/cluster/job {} budget=1000 <"$list"; fi
    for d in 5 7; do "$program" run budget=1000 <"$room/jobs/$d/script.codes" 2>/dev/null | cmp - "$room/jobs/$d/text" || return 1; done
}

# a job that can't go on says why: no folder, no script, no program, another budget, a word that is refused
jobs_say_why() {
    local folder=$room/jobs/5
    rm -f "$folder/text"
    export CODES=$program
    ends 2 'usage: tools/cluster/job FOLDER [workers=N] [round=N] [budget=N] [slice=N]' tools/cluster/job &&
        ends 4 "$room/no: there is no such folder" tools/cluster/job "$room/no" && ends 4 "$room: script.codes is missing or can not be read" tools/cluster/job "$room" &&
        ends 10 "$folder: status 10, codes: checkpoint of another script or budget" tools/cluster/job "$folder" budget=1001 &&
        ends 2 "$folder: status 2, codes: word 2 refused" tools/cluster/job "$folder" budget=1e3 &&
        CODES=/no/codes ends 127 "$folder: there is no program /no/codes: set CODES to its path" tools/cluster/job "$folder" budget=1000
}

# parts that can't be done or joined say why; of a list that was done but for one range that range is missing
parts_say_why() {
    local folder=$room/shared
    mkdir -p "$folder" "$room/empty"
    echo 'MinimumDistance(BCHCode(63,7,GF(2)));' >"$folder/script.codes"
    python3 -B tools/plan.py ranges=1 rate=400000 <"$folder/script.codes" >"$folder/ranges.txt"
    export CODES=$program
    ends 2 "usage: tools/cluster/part FOLDER 'from=A count=N' [workers=N]" tools/cluster/part &&
        ends 2 'usage: tools/cluster/join FOLDER [budget=N]' tools/cluster/join && ends 2 "$folder: no range: 1 2" tools/cluster/part "$folder" '1 2' &&
        ends 4 "$room/no: there is no such folder" tools/cluster/part "$room/no" from=0 count=1 && ends 4 "$room/empty: there are no parts" tools/cluster/join "$room/empty" &&
        ends 15 "$folder: from=1099511627775 count=1: status 15, codes: no such part" tools/cluster/part "$folder" from=1099511627775 count=1 || return 1
    sed 3d "$folder/ranges.txt" | xargs -P 2 -I{} tools/cluster/part "$folder" {} || return 1
    tools/cluster/join "$folder" 2>"$room/said"
    [ $? -eq 14 ] && grep -q 'are missing; 1 ranges of' "$room/said" && sed -n 3p "$folder/ranges.txt" | cmp - "$folder/missing.txt" &&
        tools/cluster/part "$folder" "$(cat "$folder/missing.txt")" && tools/cluster/join "$folder" && "$program" run <"$folder/script.codes" 2>/dev/null | cmp - "$folder/text"
}

in_parts() { CODES=$program tools/cluster/example | cmp - examples/in_parts.out; }

check_sessions() {
    check 'two jobs of tools/cluster/job beside each other' jobs_give_texts
    check 'tools/cluster/job says why it ends' jobs_say_why
    check 'tools/cluster/part and join say why they end, and which ranges are missing' parts_say_why
    check 'tools/cluster/example' in_parts
    check 'a search in 200 random ranges, by jobs that are killed, and joined' python3 -B tests/parts.py "$program"
    check 'sessions that are killed, stopped, cut in slices and resumed' python3 -B tests/sessions.py "$program"
    check 'streams and folders that fail, and scripts at the limits of the language' python3 -B tests/hostile.py "$program"
    check 'sessions to which memory is refused at one of their first growths' refuses_memory
    check '2,000 changed checkpoints: the program and tools/checkpoints.py agree' python3 -B tools/checkpoints.py "$program" 2000
}

check_program() {
    local document
    : >"$room/nothing"
    check_folder examples examples
    check_rows
    for document in README.md docs/*.md; do check_document "$document"; done
    check_limits
    check_outside
    check_explanations
    check_against_reference
    check_certificates
    check_trees
    check_sessions
    check_bridges
}
