# What the launcher `affedit` says to people: its help, its version, and on standard error what ended a run. It has the names `top`,
# `tools` and `program` of the launcher. Three tables beside it say what the commands, the statuses and the causes of faults are.
# The program prints one defined line on standard output, which goes past the launcher unread. So the files are looked at again, and
# where that is not enough the program is asked again for that line, over files that can be read twice.
# shellcheck shell=bash disable=SC2016,SC2154

# shellcheck source=tools/launcher/rewriting.bash
. "$tools/rewriting.bash"

# How many workers `edit` takes.
edit_workers=16
file_most=16777216
document_most=67108864
line_most=65536
# Of a script of `team`: the bytes of a line behind its number, the pairs of dictionary files, and how much of a line is looked at, which
# is more than a line of no fault has.
told_most=131072
pairs_most=4
seen_most=131100

# rows TABLE: the rows of a table, without its comments.
rows() {
    grep -v '^#' "$tools/$1"
}

# form_of COMMAND: the words of a command, all of them; nothing where there is no such command.
form_of() {
    rows commands | cut -f 1 | grep -- "^$1 " || true
}

help() {
    local form does status when last
    while IFS=$'\t' read -r form does; do
        printf 'affedit %s\n        %s\n' "$form" "$does"
    done < <(rows commands)
    cat << 'HELP'
affedit --help, affedit -h, affedit --version
        prints this, or the version, the kit that proved the program, and the digest of its sources

AFF and DIC are the files of a dictionary, in UTF-8. FILE is a text; standard input is the file /dev/stdin, or `-` for short.
SCRIPT is a file. Each line is blank, or `K TEXT`: the number of a session, 1 to 16, one space, and a line of the input of `edit`.
--workers N  so many threads, 0 to 16. They share FILE: the same is printed, and sooner. Of `edit` and `team` they check in the background.
--own OWN    a personal list: each line adds a word, or prohibits the word behind a `*`.
Options may be anywhere after the command, also as `--own=OWN`.
`check` prints a line `LINE START END WORD` for each marked word, and then `M of W`, the numbers of marked words and of words.
START and END are byte offsets from 0 in the line, END exclusive. LINE counts from 1.

status  when; the last line on standard output
HELP
    while IFS=$'\t' read -r status when last _; do
        printf '%-6s  %s; %s\n' "$status" "$when" "$last"
    done < <(rows statuses)
    echo
    echo "Behind a status from 2 to 8, standard error says what ended the run. The manual page is $(manual_page)."
}

manual_page() {
    if [ -e "$tools/building.bash" ]; then echo docs/affedit.1; else echo affedit\(1\); fi
}

# version: the number of the version, the kit that proved and built the program, and the digest of the sources that it was built from. Where
# no program of these sources is built, there is no line `kit`.
version() {
    local made=$top/MADE digest
    echo "affedit $(cat "$top/VERSION")"
    if [ ! -e "$made" ]; then
        # shellcheck source=tools/launcher/sources.bash
        . "$tools/sources.bash"
        digest=$(digest_of_sources)
        for made in "$top/out/affedit.made" "$top/dist/MADE" ''; do
            [ "$(value_of sources "$made")" != "$digest" ] || break
        done
        [ -n "$made" ] || { echo "sources $digest"; return; }
    fi
    grep -E '^(kit|sources) ' "$made"
}

# plain TEXT: a text for a terminal: bytes that are not printed are question marks, and a long text is cut.
plain() {
    printf %s "$1" | head -c 300 | LC_ALL=C tr '\000-\037\177' '?'
}

shown() {
    printf '`%s`' "$(plain "$1")"
}

tell() {
    printf 'affedit: %s\n' "$1"
}

# line_of WORD..: a line for a shell with these words.
line_of() {
    local line
    printf -v line ' %q' "$@"
    echo "${line# }"
}

# launch_of WORD..: the line that runs the launcher with these words, by the name that it was run by.
launch_of() {
    local name=$0
    [ "$(type -P "${0##*/}")" != "$0" ] || name=${0##*/}
    line_of "$name" "$@"
}

is_utf8() {
    [ -z "$(type -P iconv)" ] || printf %s "$1" | iconv -f UTF-8 -t UTF-8 > /dev/null 2>&1
}

# distance ONE OTHER: how many characters are to be changed, put in, left out, or exchanged with their neighbour.
distance() {
    local one=$1 other=$2 i j cost best
    local -A least
    for ((i = 0; i <= ${#one}; i++)); do
        for ((j = 0; j <= ${#other}; j++)); do
            if ((i == 0 || j == 0)); then
                least[$i,$j]=$((i + j))
                continue
            fi
            cost=1
            [ "${one:i-1:1}" != "${other:j-1:1}" ] || cost=0
            best=$((least[$((i - 1)),$((j - 1))] + cost))
            ((least[$((i - 1)),$j] + 1 >= best)) || best=$((least[$((i - 1)),$j] + 1))
            ((least[$i,$((j - 1))] + 1 >= best)) || best=$((least[$i,$((j - 1))] + 1))
            if ((i > 1 && j > 1)) && [ "${one:i-1:1}${one:i-2:1}" = "${other:j-2:1}${other:j-1:1}" ]; then
                ((least[$((i - 2)),$((j - 2))] + 1 >= best)) || best=$((least[$((i - 2)),$((j - 2))] + 1))
            fi
            least[$i,$j]=$best
        done
    done
    echo "${least[${#one},${#other}]}"
}

# nearest WORD NAME..: the name that is most like the word, if one is much like it.
nearest() {
    local word=${1,,} name far nearest=3 found=''
    shift
    [ ${#word} -le 40 ] || return 0
    for name in "$@"; do
        far=$(distance "$word" "$name")
        if [ "$far" -lt "$nearest" ] && [ "$far" -lt $((${#name} - 1)) ]; then
            nearest=$far
            found=$name
        fi
    done
    echo "$found"
}

# is_number TEXT LEAST MOST: decimal digits, with zeros in front or not, of a number in this range. MOST has 20 digits at most.
is_number() {
    [[ $1 =~ ^[0-9]+$ ]] || return 1
    local digits=${1#"${1%%[!0]*}"}
    digits=${digits:-0}
    [ ${#digits} -le ${#3} ] || return 1
    # Of as many digits, the order of texts is that of numbers.
    ! { [ ${#digits} -eq ${#3} ] && [[ $digits > $3 ]]; } && ! { [ "$digits" = 0 ] && [ "$2" != 0 ]; }
}

# ---- status 2: the words

# words_fault WORD..: what is wrong with a command line, in a sentence; nothing where it is one of the forms.
words_fault() {
    local word command=${1-} place=0
    for word in "$@"; do
        place=$((place + 1))
        is_utf8 "$word" || { echo "word $place of the command line is not UTF-8: $(LC_ALL=C printf %q "${word:0:300}")"; return; }
    done
    case $command in
        check | team) operands_fault 3 "$@" ;;
        edit) operands_fault 2 "$@" ;;
        forms | pipe) operands_fault 2 "$@" ;;
        make) made_fault "$@" ;;
        '') echo 'there is no command' ;;
        *) command_fault "$command" ;;
    esac
}

command_fault() {
    local near names
    mapfile -t names < <(rows commands | cut -d ' ' -f 1)
    near=$(nearest "$1" "${names[@]}")
    if [ -e "$1" ]; then
        echo "$(shown "$1") is no command, but a file; a command stands before the files"
    elif [ -n "$near" ]; then
        echo "$(shown "$1") is no command; the nearest is $(shown "$near")"
    else
        echo "$(shown "$1") is no command"
    fi
}

# operands_fault COUNT COMMAND WORD..: of a command with so many names behind it, and options behind those.
operands_fault() {
    local count=$1 command=$2
    shift 2
    case ${1-} in
        --help | -h) echo "$(shown "$1") stands alone: \`affedit $1\`"; return ;;
        --*) [ -e "$1" ] || { echo "$(shown "$1") stands too early: options stand behind the names of the files"; return; } ;;
    esac
    if [ $# -lt "$count" ]; then
        echo "\`$command\` takes $count names of files, and the words behind it are $#"
        return
    fi
    shift "$count"
    options_fault "$command" "$@"
}

# options_fault COMMAND WORD..: of the words behind the names.
options_fault() {
    local command=$1 name=${2-} most=16
    shift
    [ $# -gt 0 ] || return 0
    if [ "$command" = forms ] || [ "$command" = pipe ]; then
        echo "$(shown "$name") is a word too many: \`$command\` takes two names and nothing else"
        return
    fi
    [ "$command" != edit ] || most=$edit_workers
    case $command:$name in
        *:--workers)
            if [ $# -lt 2 ]; then
                echo '`--workers` has no number behind it'
            elif ! [[ $2 =~ ^[0-9]{1,2}$ ]] || [ "$((10#$2))" -gt 16 ]; then
                echo "$(shown "$2") is no number of workers: 0 to 16, in one or two digits"
            elif [ "$((10#$2))" -gt "$most" ]; then
                echo "\`$command\` takes no more workers than $most, and $(shown "$2") asks for more"
            else
                own_fault "$command" "${@:3}"
            fi
            ;;
        team:--own=*) own_fault "$command" "$@" ;;
        *:--workers=* | *:--own=*) echo "$(shown "$name") is two words: write \`${name%%=*} $(plain "${name#*=}")\`" ;;
        *) own_fault "$command" "$@" ;;
    esac
}

# own_fault COMMAND WORD..: of the words where `--own OWN` may stand, but of `team`.
own_fault() {
    local near command=$1 options=(--workers --own)
    shift
    [ $# -gt 0 ] || return 0
    [ "$command" != team ] || options=(--workers)
    if [ "$command" = team ] && [[ $1 =~ ^--own(=|$) ]]; then
        echo "$(shown "$1") is a word too many: \`team\` takes no personal list"
    elif [ "$1" != --own ]; then
        near=$(nearest "$1" "${options[@]}")
        if [ "$1" = --workers ]; then
            echo '`--workers` stands there twice'
        elif [[ $1 == -* ]] && [ -n "$near" ]; then
            echo "$(shown "$1") is no option; the nearest is $(shown "$near")"
        elif [[ $1 == -* ]]; then
            echo "$(shown "$1") is no option"
        else
            echo "$(shown "$1") is a word too many"
        fi
    elif [ $# -lt 2 ]; then
        echo '`--own` has no name of a file behind it'
    elif [ $# -gt 2 ]; then
        echo "$(shown "$3") stands too late: \`--own OWN\` is last"
    fi
}

made_fault() {
    if [ $# -ne 3 ]; then
        echo "\`make\` takes two numbers, and the words behind it are $(($# - 1))"
    elif ! is_number "$2" 0 18446744073709551615; then
        echo "$(shown "$2") is no START: a decimal number below 2^64"
    elif ! is_number "$3" 1 50000; then
        echo "$(shown "$3") is no SIZE: a decimal number from 1 to 50000"
    fi
}

# propose WORD..: sets `arranged` to the words of a form that these were meant to be, with the command and the options that are nearest.
# Fails where that is not seen.
propose() {
    local command=${1-} names word near words=()
    mapfile -t names < <(rows commands | cut -d ' ' -f 1)
    if [ -e "$command" ] && [ -z "$(form_of "$command")" ]; then
        set -- check "$@"
    else
        near=$(nearest "$command" "${names[@]}")
        set -- "${near:-$command}" "${@:2}"
    fi
    for word in "$@"; do
        near=''
        [[ $word != --* ]] || near=$(nearest "${word%%=*}" --workers --own)
        [ -z "$near" ] || word=$near${word#"${word%%=*}"}
        words+=("$word")
    done
    if [ -n "$(words_fault "${words[@]}")" ]; then
        arrange "${words[@]}" && [ -z "$(words_fault "${arranged[@]}")" ]
    else
        arranged=("${words[@]}")
    fi && { order named "${arranged[@]}" || true; }
}

# explain_words WORD..: what was not understood, the line that was meant if that is seen, and the form that is nearest.
explain_words() {
    # shellcheck disable=SC2034
    local fault command=${1-} names near form arranged doubt
    if [ $# -eq 0 ]; then
        help
        return
    fi
    fault=$(words_fault "$@")
    tell "${fault:-the command line is none of the forms}"
    if propose "$@"; then
        tell "the line to copy: $(launch_of "${arranged[@]}")"
        near=${arranged[0]}
    else
        mapfile -t names < <(rows commands | cut -d ' ' -f 1)
        near=$(nearest "$command" "${names[@]}")
    fi
    while IFS= read -r form; do
        tell "the form is: affedit $form"
    done < <(if [ -n "$near" ]; then form_of "$near"; else rows commands | cut -f 1; fi)
    tell '`affedit --help` says what they do'
}

# ---- the files

# The names of the files of a command line, in the order in which they are loaded: `names`, of the kinds `kinds`.
files_of() {
    local word previous=''
    kinds=(aff dic)
    names=("$2" "$3")
    if [ "$1" = team ]; then
        kinds+=(script)
        names+=("$4")
        return
    fi
    for word in "${@:4}"; do
        [ "$previous" != --own ] || { kinds+=(own); names+=("$word"); }
        previous=$word
    done
    [ "$1" != check ] || { kinds+=(file); names+=("$4"); }
}

# name_of KIND: the name of the file of this kind; nothing where none is named.
name_of() {
    local place
    for place in "${!kinds[@]}"; do
        [ "${kinds[place]}" != "$1" ] || echo "${names[place]}"
    done
}

# Whether the files of the dictionary, and of the personal list, may be read again, as a pipe may not.
are_plain() {
    local place
    for place in "${!names[@]}"; do
        [[ ${kinds[place]} =~ ^(file|script)$ ]] || [ -f "${names[place]}" ] || return 1
    done
}

# asked FILE: what the program prints of this text by the files of the dictionary.
asked() {
    local own
    own=$(name_of own)
    "$program" check "${names[0]}" "${names[1]}" "$1" ${own:+--own "$own"} 2> /dev/null
}

# asked_of_text FILE: what it prints of a text by a dictionary without words: whether the text itself is in order.
asked_of_text() {
    "$program" check /dev/null <(echo 0) "$1" 2> /dev/null
}

# ---- status 5: a file that is not there, or that cannot be read

# unread FILE: why a file was not read; nothing where it is not seen.
unread() {
    local name=$1
    if [ -L "$name" ] && [ ! -e "$name" ]; then
        tell "$(shown "$name") is a link to a file that is not there"
    elif [ ! -e "$name" ]; then
        tell "there is no file $(shown "$name")"
        if [ "$name" = - ]; then
            tell 'standard input is the file /dev/stdin'
        elif [[ $name != */* ]] && [ -f "/usr/share/hunspell/$name" ]; then
            tell "there is /usr/share/hunspell/$name"
        fi
    elif [ -d "$name" ]; then
        tell "$(shown "$name") is a folder, and no file"
    elif [ ! -r "$name" ]; then
        tell "you may not read the file $(shown "$name")"
    fi
}

explain_missing() {
    local name said
    for name in "${names[@]}"; do
        said=$(unread "$name")
        if [ -n "$said" ]; then
            echo "$said"
            return
        fi
    done
    if [ "$1" = team ]; then
        explain_pairs unread || tell 'a file could not be read, or one that the script loads is not there'
    elif [ "$1" != edit ] && [ "$1" != pipe ]; then
        tell 'a file could not be read'
    elif [ -d /dev/stdin ]; then
        tell 'standard input is a folder, and could not be read'
    else
        tell 'standard input could not be read, or a file of the dictionary'
    fi
}

# ---- status 3: a fault of the dictionary or of the personal list

# message_of KIND CAUSE: what a cause says to people.
message_of() {
    rows causes | awk -F '\t' -v kind="$1" -v cause="$2" '$1 == kind && $2 == cause { print $3 }'
}

# tool NAME: how a script is called, in the sources and where it is installed.
tool() {
    if [ -e "$tools/building.bash" ]; then echo "$top/tools/$1"; else echo "affedit-${1#affedit-}"; fi
}

# What the files of a dictionary are known by: the ends of their names, or how they begin.
named_aff() { [[ $1 == *.aff ]]; }
named_dic() { [[ $1 == *.dic ]]; }
begins_aff() { head -c 65536 -- "$1" | LC_ALL=C grep -qaE $'^(\xef\xbb\xbf)?(SET|FLAG|TRY|KEY|WORDCHARS|REP|MAP|PFX|SFX|BREAK|ICONV|COMPOUND[A-Z]*)[ \t]'; }
begins_dic() { head -n 1 -- "$1" | head -c 64 | LC_ALL=C grep -qaE $'^(\xef\xbb\xbf)?[0-9]+[ \t]*\r?$'; }

# order KNOWN COMMAND WORD..: sets `arranged` to the words with the .aff file first and then the .dic file, as they are KNOWN by: `named` or
# `begins`. Fails with 2 if the order is right, and with 1 if it is not known: two files or none are taken for one of them.
order() {
    local known=$1 command=$2 count=2 name aff=() dic=() others=()
    shift 2
    [[ $command != check && $command != team ]] || count=3
    for name in "${@:1:count}"; do
        if "${known}_aff" "$name"; then
            aff+=("$name")
        elif "${known}_dic" "$name"; then
            dic+=("$name")
        else
            others+=("$name")
        fi
    done 2> /dev/null
    [ ${#aff[@]}${#dic[@]} = 11 ] || return 1
    arranged=("$command" "${aff[@]}" "${dic[@]}" "${others[@]}" "${@:count + 1}")
    [ "$1" != "${aff[0]}" ] || [ "$2" != "${dic[0]}" ] || return 2
}

# explain_order WORD..: that the files stand in another order than the command takes them in, and the line to copy. Fails if they do not.
explain_order() {
    local arranged status=0
    order named "$@" || status=$?
    if [ "$status" = 1 ] && are_plain; then
        status=0
        order begins "$@" || status=$?
    fi
    [ "$status" = 0 ] || return
    if [ "$2" = "${arranged[3]-}" ]; then
        tell "$(shown "$2") stands before the files of the dictionary, and has to stand after them"
    else
        tell "the .aff file stands first, then the .dic file: $(shown "${arranged[1]}"), then $(shown "${arranged[2]}")"
    fi
    tell "the line to copy: $(launch_of "${arranged[@]}")"
}

# advise KIND CAUSE: what mends a fault. The causes that prepare-dictionary never mends are left to the linter.
advise() {
    local own out
    own=$(name_of own)
    out=${names[0]##*/}
    case $1:$2 in
        own:* | *:TooMany | aff:BadCondition | aff:LeftOut)
            tell "to see what helps: $(line_of "$(tool lint-dictionary)" "${names[@]:0:2}" ${own:+"$own"})"
            ;;
        *) tell "to mend both files, or to see why not: $(line_of "$(tool prepare-dictionary)" "${names[@]:0:2}" "${out%.aff}-prepared")" ;;
    esac
}

# explain_fault WORD..: the line with a fault, and what helps.
explain_fault() {
    local kind line cause more said name
    said=''
    ! are_plain || said=$(asked /dev/null)
    read -r kind line cause more <<< "$said"
    if ! [[ $kind =~ ^(aff|dic|own)$ && $line =~ ^[0-9]+$ && -n $cause && -z $more ]]; then
        tell 'a file of the dictionary, or the personal list, has a fault: the last line has the file, the line and the cause'
        explain_order "$@"
        return
    fi
    name=$(name_of "$kind")
    echo "$(plain "$name"):$line: $(message_of "$kind" "$cause") ($cause)"
    if [ "$kind" != own ] && explain_order "$@"; then
        return
    elif [ "$cause" != NotUtf8 ] || ! explain_binary "$name"; then
        advise "$kind" "$cause"
    fi
}

# ---- status 4: a line of the text that is not UTF-8

explain_document() {
    local file said number
    file=$(name_of file)
    said=''
    [ ! -f "$file" ] || said=$(asked_of_text "$file")
    if [[ $said =~ ^doc\ ([0-9]+)$ ]]; then
        number=${BASH_REMATCH[1]}
        echo "$(plain "$file"):$number: the line is not UTF-8"
    else
        tell "$(shown "$file") has a line that is not UTF-8: the last line has its number"
    fi
    explain_encoding "$file"
}

# explain_encoding FILE: what helps if a text is not UTF-8.
explain_encoding() {
    explain_binary "$1" || tell 'a text in Latin-1 becomes UTF-8 by: iconv -f ISO-8859-1 -t UTF-8'
}

# explain_binary FILE: that a file has bytes 0, which no text has but in UTF-16. Fails if it has none, or cannot be read again.
explain_binary() {
    local line
    [ -f "$1" ] || return
    line=$(first_zero "$1")
    if [[ $(head -c 2 -- "$1" | LC_ALL=C od -A n -t x1) =~ ^\ (ff\ fe|fe\ ff)$ ]]; then
        tell "$(shown "$1") is UTF-16. It becomes UTF-8 by: $(line_of iconv -f UTF-16 -t UTF-8 "$1") > $(line_of "$1-utf8")"
    elif [ -n "$line" ]; then
        tell "$(shown "$1") is a binary file, and no text: line $line has a byte 0"
    else
        return 1
    fi
}

# first_zero FILE: the number of the first line with a byte 0; nothing if there is none.
first_zero() {
    LC_ALL=C tr -c '\000\n' x < "$1" | LC_ALL=C tr '\000' 0 | LC_ALL=C grep -nom 1 0 | head -n 1 | cut -d : -f 1
}

# ---- status 8: limits

size_of() {
    [ -f "$1" ] && stat -L -c %s -- "$1"
}

# too_large FILE [MOST]: that a file has more bytes than that; nothing where it has not.
too_large() {
    local size most=${2:-$file_most}
    size=$(size_of "$1" || echo 0)
    [ "$size" -le "$most" ] || tell "$(shown "$1") has $size bytes, and $most are the most"
}

explain_limit() {
    local place most said=''
    for place in "${!names[@]}"; do
        most=$file_most
        [ "${kinds[place]}" != file ] || most=$document_most
        said=$(too_large "${names[place]}" "$most")
        if [ -n "$said" ]; then
            echo "$said"
            [ "${kinds[place]}" != file ] || explain_way_out
            return
        fi
    done
    if [ "$1" = check ]; then
        [ ! -f "${names[place]}" ] || said=$(asked_of_text "${names[place]}")
        text_limit "${names[place]}" "$said"
        explain_way_out
    elif [ "$1" = team ]; then
        explain_script_limit
    elif ! are_plain; then
        tell 'a file or the input is too large: the last line has the number that is the most'
    elif [ "$1" = forms ]; then
        tell 'the dictionary has more forms than are listed, 1000000'
    else
        tell 'the input has too many bytes, or a line of it has: the last line has the number that is the most'
    fi
}

# explain_way_out: the command that checks the text and has no limit to its size and lines.
explain_way_out() {
    local base=${names[0]%.aff} own file words
    own=$(name_of own)
    file=$(name_of file)
    [[ $base == */* ]] || base=./$base
    [[ $file != -* ]] || file=./$file
    [ "$file" != /dev/stdin ] || file=-
    words=("$(tool affedit-check)" -d "$base" ${own:+-p "$own"} "$file")
    if [[ ${names[0]} == *.aff && ${names[1]} == "${names[0]%.aff}.dic" && $base != *,* ]]; then
        tell "affedit-check has no such limit: $(line_of "${words[@]}")"
    else
        tell "affedit-check has no such limit: $(tool affedit-check) -d ./NAME FILE, with the dictionary in ./NAME.aff and ./NAME.dic"
    fi
}

# long_line FILE: the number of the first line that is too long, and how many bytes it has.
long_line() {
    LC_ALL=C awk -v most="$line_most" '
        NR == 1 { sub(/^\357\273\277/, "") }
        { sub(/\r$/, "") }
        length($0) > most { printf "%d: the line has %d bytes", NR, length($0); exit }' < "$1"
}

# text_limit FILE SAID: which limit of its lines a text passes.
text_limit() {
    if [ "$2" = 'limit 20000' ]; then
        tell "$(shown "$1") has $(awk 'END { print NR }' < "$1") lines, and 20000 are the most"
    elif [ "$2" = "limit $line_most" ]; then
        echo "$(plain "$1"):$(long_line "$1"), and $line_most are the most"
    else
        tell "$(shown "$1") has too many bytes or lines, or too long a line: the last line has the number that is the most"
    fi
}

# ---- the script of `team`

# Whether a script may be read again, and is no larger than it may be.
is_kept() {
    [ -f "$1" ] && [ -r "$1" ] && [ -z "$(too_large "$1")" ]
}

# script_lines FILE: a front of each line of a script. A byte that no text has stands for each byte 0, which not every awk reads.
script_lines() {
    tr '\000' '\377' < "$1" | LC_ALL=C cut -b "-$seen_most"
}

# What awk does with each of them: a byte order mark, and a carriage return at the end, are of no line.
of_line='NR == 1 { sub(/^\357\273\277/, "") } { sub(/\r$/, "") }'

# first_not_utf8 FILE: the number of the first line that is not UTF-8, if there is one; fails where that is not known.
first_not_utf8() {
    local next=$'[\x80-\xbf]' utf8
    utf8="[^"$'\x80-\xff]|[\xc2-\xdf]'"$next"
    utf8+=$'|\xe0[\xa0-\xbf]'"$next"$'|[\xe1-\xec\xee\xef]'"$next$next"$'|\xed[\x80-\x9f]'"$next"
    utf8+=$'|\xf0[\x90-\xbf]'"$next$next"$'|[\xf1-\xf3]'"$next$next$next"$'|\xf4[\x80-\x8f]'"$next$next"
    LC_ALL=C grep -anvxm1 -E "($utf8)*" < "$1" | LC_ALL=C cut -d : -f 1
    [ "${PIPESTATUS[0]}" -le 1 ]
}

# script_fault FILE: the number of the first line of a script that is of no form, and why: `bytes` where it is not UTF-8, or `word` and its
# first word, in place of the number of a session.
script_fault() {
    local bad
    bad=$(first_not_utf8 "$1") || return 0
    script_lines "$1" | LC_ALL=C awk -v bad="${bad:-0}" -v seen="$seen_most" "$of_line"'
        NR == bad { print NR, "bytes"; exit }
        # What stands behind so many blanks is not known.
        !/[^ \t]/ && length($0) >= seen - 4 { exit }
        /[^ \t]/ && !/^(0?[1-9]|1[0-6])( |$)/ {
            word = substr($0, 1, index($0 " ", " ") - 1)
            word = substr(word, 1, 400)
            gsub(/\377/, "?", word)
            print NR, "word", word
            exit
        }'
}

explain_script() {
    local script number='' why='' word=''
    script=$(name_of script)
    ! is_kept "$script" || IFS=' ' read -r number why word < <(script_fault "$script")
    if [ -z "$number" ]; then
        tell "$(shown "$script") has a line that is not UTF-8, or is of no form: the last line has its number"
    elif [ "$why" = bytes ]; then
        echo "$(plain "$script"):$number: the line is not UTF-8"
        explain_encoding "$script"
        return
    elif [ -z "$word" ]; then
        echo "$(plain "$script"):$number: the line begins with a space, in place of the number of a session"
    else
        echo "$(plain "$script"):$number: $(shown "$word") is no number of a session: 1 to 16, in one or two digits"
    fi
    tell 'a line of a script is blank, or has the number of a session, one space, and a line of the input of `edit`'
}

# script_limit FILE: the number of the line by which a script passes a limit, and what it has too many of.
script_limit() {
    script_lines "$1" | LC_ALL=C awk -v told="$told_most" -v pairs="$pairs_most" "$of_line"'
        !/[^ \t]/ { next }
        { text = substr($0, index($0 " ", " ") + 1) }
        length(text) > told { long = NR; exit }
        !many && text ~ /^load [^ ]+ [^ ]+$/ && !(text in found) {
            found[text]
            if (++count > pairs) many = NR
        }
        END {
            if (long) print long ": the line has more than " told " bytes behind the number of its session"
            else if (many) print many ": the line loads one more pair of dictionary files, and " pairs " are the most"
        }'
}

explain_script_limit() {
    local script said=''
    script=$(name_of script)
    if are_plain && is_kept "$script"; then
        said=$(script_limit "$script")
        if [ -n "$said" ]; then
            echo "$(plain "$script"):$said"
            return
        fi
        ! explain_pairs too_large || return
    fi
    tell 'a file or a line of the script is too large, or it loads too many pairs: the last line has the number that is the most'
}

# pairs_of FILE: of each pair of dictionary files that a script loads, the number of the first line that does, and both names, a line each.
pairs_of() {
    script_lines "$1" | LC_ALL=C awk -v pairs="$pairs_most" "$of_line"'
        /^[0-9]+ load [^ ]+ [^ ]+$/ {
            text = substr($0, index($0, " ") + 6)
            if (text in found) next
            found[text]
            at = index(text, " ")
            print NR "\n" substr(text, 1, at - 1) "\n" substr(text, at + 1)
            if (++count == pairs) exit
        }'
}

# faultless FILE: whether an .aff file has no fault in a line, as the program says of it. Fails with 2 where that is not known.
faultless() {
    local said
    [ -f "$1" ] || return 2
    said=$("$program" check "$1" <(echo 0) /dev/null 2> /dev/null)
    case $said in
        '0 of 0') ;;
        'aff '*) return 1 ;;
        *) return 2 ;;
    esac
}

# Whether it is seen how large a file is, if it is there: how large a pipe was is not.
has_size() {
    [ -f "$1" ] || [ ! -e "$1" ]
}

# explain_pairs LOOK: of the files of the pairs that the script loads, what LOOK says of the first of which it says anything, and which line
# loads it. Fails where that is not known.
explain_pairs() {
    local look=$1 script said place pairs aff dic status
    script=$(name_of script)
    is_kept "$script" || return 1
    mapfile -t pairs < <(pairs_of "$script")
    for ((place = 0; place < ${#pairs[@]}; place += 3)); do
        aff=${pairs[place + 1]} dic=${pairs[place + 2]}
        # No file has a name with a byte 0.
        [[ $aff$dic != *$'\377'* ]] || return 1
        said=$("$look" "$aff")
        if [ -z "$said" ]; then
            [ "$look" = unread ] || { has_size "$aff" && has_size "$dic"; } || return 1
            said=$("$look" "$dic")
            [ -n "$said" ] || continue
            # Where the .aff file has a fault in a line, the .dic file is not looked at.
            faultless "$aff" && status=0 || status=$?
            [ "$status" != 1 ] || continue
            [ "$status" = 0 ] || return 1
        fi
        echo "$said"
        echo "$(plain "$script"):${pairs[place]}: the line loads it"
        return
    done
    return 1
}

# ---- all

# Before a long build: what is wrong with the words, if anything is.
explain_early() {
    [ -n "$(words_fault "$@")" ] && explain_words "$@"
}

explain_end() {
    local status=$1 kinds=() names=()
    shift
    if [[ $status =~ ^[3458]$ ]]; then
        case ${1-} in
            check | edit | forms | pipe | team) files_of "$@" ;;
            *) return ;;
        esac
    fi
    case $status in
        2) explain_words "$@" ;;
        3) explain_fault "$@" ;;
        4) if [ "$1" = team ]; then explain_script; else explain_document; fi ;;
        5) explain_missing "$1" ;;
        # A reader that has enough is nothing to tell of.
        6) [ -n "$is_piped" ] || tell 'standard output could not be written' ;;
        7) tell 'memory ran out' ;;
        8) explain_limit "$1" ;;
    esac
}
