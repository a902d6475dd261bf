# What ./codes knows of the arguments of the program: which one the program refuses, by the rules of docs/FORMATS.md, and why. So a
# mistake ends at once, and below the line of the rules stands what to write instead. Whoever reads this file sets `usage`, the
# status of a refused argument.
# shellcheck shell=sh disable=SC2154

# --- the rules

# may_follow COMMAND KEY: whether an argument with this key may follow the command
may_follow() {
    case $1,$2 in
    run,workers | run,round | run,budget | run,slice | run,keep) ;;
    resume,workers | resume,round | resume,budget | resume,slice | resume,keep) ;;
    summary,workers | summary,round | summary,budget | summary,seed) ;;
    part,from | part,count | part,workers) ;;
    join,budget) ;;
    *) return 1 ;;
    esac
}

# sets least and most, between which the value of a key is
range() {
    least=0 most=1099511627776
    case $1 in
    workers) least=1 most=256 ;;
    round) least=1 most=1048576 ;;
    slice | count) least=1 ;;
    seed) most=18446744073709551615 ;;
    esac
}

# whether the text is a number: digits, without a leading zero unless it is 0 itself
is_number() {
    case $1 in
    0) ;;
    '' | 0* | *[!0-9]*) return 1 ;;
    esac
}

# is_at_most NUMBER MOST: by their lengths first, since the numbers of a shell are shorter than twenty digits
is_at_most() {
    [ ${#1} -lt ${#2} ] || { [ ${#1} -eq ${#2} ] && [ "$(printf '%s\n%s\n' "$1" "$2" | LC_ALL=C sort | head -n 1)" = "$1" ]; }
}

# is_value KEY TEXT: whether the text is a value of the key
is_value() {
    case $1,$2 in
    keep,yes | keep,no) return ;;
    keep,*) return 1 ;;
    esac
    range "$1"
    is_number "$2" && is_at_most "$least" "$2" && is_at_most "$2" "$most"
}

# whether the text is UTF-8, as far as `grep` can tell
is_text() {
    case $1 in
    *[!\ -~]*) printf '%s\n' "$1" | LC_ALL=C.UTF-8 grep -aqx '.*' ;;
    esac
}

# --- why an argument is refused

# refuse N REASON: the line of the program, and the reason below it
refuse() {
    echo "codes: word $1 refused" >&2
    printf 'codes: %s\n' "$2" >&2
    exit "$usage"
}

# whether a word looks like the name of a file
is_file_name() {
    case $1 in
    -*) return 1 ;;
    *[./]*) ;;
    *) [ -f "$1" ] ;;
    esac
}

# the word as a shell reads it: in quotes, if there are other signs in it than those of plain names
quoted() {
    case $1 in
    *[!A-Za-z0-9_./,:=+@%-]*) printf "'%s'\n" "$(printf '%s\n' "$1" | sed "s/'/'\\\\''/g")" ;;
    *) printf '%s\n' "$1" ;;
    esac
}

# the word, if it looks so, else a word for it
file_name() { if is_file_name "$1"; then quoted "$1"; else echo FILE; fi; }

in_small_letters() { printf '%s\n' "$1" | LC_ALL=C tr '[:upper:]' '[:lower:]'; }

# reasons against the first word
why_no_command() {
    small=$(in_small_letters "${1#"${1%%[!-]*}"}")
    case $small in
    '') echo "a command is missing: run, resume, check, summary, part or join; see ./codes --help" ;;
    run | resume | check | summary | part | join | explain | pretty | page | install | test | prove) echo "the command is written $small" ;;
    workers=* | round=* | budget=* | keep=* | slice=*) echo "a command comes first: ./codes run $1 < FILE" ;;
    seed=*) echo "a command comes first: ./codes summary $1" ;;
    from=* | count=*) echo "a command comes first: ./codes part $1" ;;
    *)
        if is_file_name "$1"; then
            echo "run reads a script from standard input: ./codes run < $(quoted "$1")"
        else
            echo "a command is run, resume, check, summary, part or join, or explain, pretty, page, install, test or prove; see ./codes --help"
        fi
        ;;
    esac
}

# power BASE EXPONENT: the power, or some number above 2^40
power() {
    product=1 count=0
    while [ "$count" -lt "$2" ] && [ "$product" -le 1099511627776 ]; do
        product=$((product * $1))
        count=$((count + 1))
    done
    echo "$product"
}

# what is probably meant by a text that is no value of the key; it may be no value either
meant() {
    text=$(in_small_letters "$2" | tr -d ",_'\"+ ")
    case $1,$text in
    keep,on | keep,true | keep,1 | keep,y | keep,yes) echo yes ;;
    keep,off | keep,false | keep,0 | keep,n | keep,no) echo no ;;
    keep,*) ;;
    workers,auto | workers,all | workers,max) getconf _NPROCESSORS_ONLN 2>/dev/null ;;
    *,[1-9]e[0-9] | *,[1-9]e1[0-9] | *,[1-9][0-9]e[0-9]) echo $((${text%e*} * $(power 10 "${text#*e}"))) ;;
    *,[1-9]^[0-9] | *,[1-9]^[1-9][0-9] | *,[1-9][0-9]^[0-9]) power "${text%^*}" "${text#*^}" ;;
    *,[1-9]\*\*[0-9] | *,[1-9]\*\*[1-9][0-9]) power "${text%%\**}" "${text##*\*}" ;;
    *,0*) printf '%s\n' "$text" | sed 's/^00*\(.\)/\1/' ;;
    *) printf '%s\n' "$text" ;;
    esac
}

# why_no_value KEY TEXT
why_no_value() {
    thought=$(meant "$1" "$2")
    range "$1"
    if is_value "$1" "$thought"; then
        echo "write $1=$thought"
    elif [ "$1" = keep ]; then
        echo "keep=yes keeps checkpoints, keep=no doesn't"
    elif is_number "$2"; then
        echo "$1 is a number from $least to $most"
    else
        echo "$1 is a number from $least to $most, in digits alone"
    fi
}

# what may follow a command
what_may_follow() {
    case $1 in
    run | resume) echo "after $1 come workers=N, round=N, budget=N, keep=yes and slice=N, or none of them" ;;
    summary) echo "after summary come seed=N, and perhaps workers=N, round=N and budget=N" ;;
    part) echo "after part come from=N, count=N and perhaps workers=N, in this order" ;;
    join) echo "after join comes budget=N, or nothing" ;;
    esac
}

# why_refused COMMAND WORD: reasons against a later word that has not the form of an argument
why_refused() {
    bare=${2#"${2%%[!-]*}"}
    key=$(in_small_letters "${bare%%=*}")
    case $1,$2 in
    check,*)
        echo "check takes no argument, and reads a certificate from standard input: ./codes check < $(file_name "$2")"
        return
        ;;
    *,-) echo "$1 reads standard input anyway: ./codes $1 < FILE"; return ;;
    *,-[jw][1-9]*) echo "write workers=${2#-[jw]}"; return ;;
    *,-[jw]) echo "write workers=N"; return ;;
    esac
    case $key in
    workers | round | budget | slice | seed | keep | from | count) ;;
    progress) echo "progress comes before the command: ./codes progress=no run < FILE"; return ;;
    *)
        if is_file_name "$2" && [ "$1" != summary ]; then
            echo "$1 reads $([ "$1" = join ] && echo 'lines of parts' || echo 'a script') from standard input: ./codes $1 < $(quoted "$2")"
        else
            what_may_follow "$1"
        fi
        return
        ;;
    esac
    if ! may_follow "$1" "$key"; then
        what_may_follow "$1"
    elif [ "$bare" = "${bare%%=*}" ]; then
        echo "$key takes a value after =, without blanks: $key=$([ "$key" = keep ] && echo yes || echo N)"
    elif is_value "$key" "${bare#*=}"; then
        echo "write $key=${bare#*=}"
    else
        why_no_value "$key" "${bare#*=}"
    fi
}

# know_arguments ARGUMENT..: ends, as the program would, if one of them is refused
know_arguments() {
    command=${1-}
    case $command in
    run | resume | check | summary | part | join) ;;
    --version) [ $# -eq 1 ] || refuse 0 "--version stands alone" ;;
    *) refuse 0 "$(why_no_command "$command")" ;;
    esac
    for word; do is_text "$word" || refuse 0 "an argument isn't UTF-8"; done
    number=0 keeps=no slice='' seeded=no seen=' '
    for word; do
        [ "$number" -eq 0 ] || know_argument "$word"
        number=$((number + 1))
    done
    [ -z "$slice" ] || [ "$keeps" = yes ] || refuse "$slice" "slice needs keep=yes, since the session goes on from its checkpoint"
    [ "$command" != summary ] || [ "$seeded" = yes ] || refuse $# "summary needs seed=N: ./codes summary seed=1"
    [ "$command" != part ] || [ $# -ge 3 ] || refuse $# "part needs from=N and count=N: ./codes part from=0 count=1 < FILE"
}

# the next one, whose number is `number`
know_argument() {
    key=${1%%=*} value=${1#*=}
    { [ "$1" != "$key" ] && may_follow "$command" "$key" && is_value "$key" "$value"; } || refuse "$number" "$(why_refused "$command" "$1")"
    case $seen in
    *" $key "*) refuse "$number" "$key is there already" ;;
    esac
    case $command,$number,$key in
    part,1,from | part,2,count | part,3,workers) ;;
    part,*) refuse "$number" "$(what_may_follow part)" ;;
    esac
    seen="$seen$key "
    case $key in
    keep) keeps=$value ;;
    slice) slice=$number ;;
    seed) seeded=yes ;;
    esac
}
