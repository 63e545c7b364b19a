# For the scripts beside this file: reads files of words, hands words to a program, builds what is missing or older than its sources.
#
# A file of words is text: decimal numbers from 0 to 4294967295, separated by blanks or tabs, a # before a comment. Lines end by LF or
# CRLF, the last one also by the file's end; a BOM of UTF-8 may stand in front. Leading zeros count for nothing: 08 is 8. No text of a
# file is evaluated, expanded or reckoned with before it is known to be digits of a number that fits in 32 bits.

script=${0##*/}
examples=$(dirname -- "$(readlink -f -- "${BASH_SOURCE[0]}")")
root=${examples%/*}
largest=4294967295
most_bytes=4194304

say() { printf '%s: %s\n' "$script" "$1" >&2; }

# Says each line and exits 2.
stop() {
    local line
    for line in "$@"; do say "$line"; done
    exit 2
}

wrong_use() {
    say "$1"
    usage >&2
    exit 2
}

# Sets file to the one file that the arguments may name, or to the first argument, the default; shows the script's usage on --help.
file_of_arguments() {
    file=$1
    shift
    case ${1-} in
    -h | --help)
        usage
        exit 0
        ;;
    --) shift ;;
    -*) wrong_use "there is no option '$(shown "$1")'; a file whose name begins with - is given as ./-NAME" ;;
    esac
    [ $# -le 1 ] || wrong_use "at most one file is read, and $# arguments are given"
    file=${1-$file}
}

# A text of a file as a terminal may show it: each byte that is not printable ASCII as \xNN, cut after 40 bytes.
shown() {
    local LC_ALL=C byte at
    for ((at = 0; at < ${#1} && at < 40; at++)); do
        byte=${1:at:1}
        [[ $byte == [\ -~] ]] || printf -v byte '\\x%02x' "'$byte"
        printf '%s' "$byte"
    done
    [ "${#1}" -le 40 ] || printf '...'
}

# A path as the caller gave it, without control characters.
named() {
    local LC_ALL=C
    printf "'%s'" "${1//[[:cntrl:]]/?}"
}

# Sets text to a file's bytes, a NUL as byte 1: no text has either, and bash keeps no NUL.
read_text() {
    local file
    file=$(named "$1")
    [[ -e $1 ]] || stop "$file: there is no such file."
    [[ ! -d $1 ]] || stop "$file is a folder, not a file of words."
    [[ -r $1 ]] || stop "$file may not be read: its permissions forbid it."
    text=$(set -o pipefail && head -c "$((most_bytes + 1))" <"$1" | tr '\000' '\001' && printf .) || stop "$file could not be read."
    text=${text%.}
    [ "${#text}" -le "$most_bytes" ] || stop "$file has over $most_bytes bytes: it cannot be a file of words for these programs."
}

# Reads a file of words into the array words; where it is no such file, says where and why, and exits 2.
read_words() {
    local LC_ALL=C IFS=$' \t' text lines line number word digits file
    local zeros='^0+(.+)$'
    words=()
    file=$(named "$1")
    read_text "$1"
    case $text in
    $'\xff\xfe'* | $'\xfe\xff'*) stop "$file, line 1: this is UTF-16. Save the file as UTF-8 or ASCII." "Nothing was run." ;;
    esac
    mapfile lines < <(printf '%s' "${text#$'\xef\xbb\xbf'}")
    for number in "${!lines[@]}"; do
        line=${lines[number]%$'\r\n'}
        line=${line%$'\n'}
        [[ $line != *$'\001'* ]] || unreadable "a byte 0 or 1, which no text has: this is not a file of words."
        [[ $line != *$'\r'* ]] || unreadable "'$(word_with $'\r' "$line")' has a carriage return without a line feed behind it."
        line=${line%%#*}
        [[ $line != *[!0-9$' \t']* ]] || unreadable "'$(word_with $'[^0-9 \t]' "$line")' is not a word." \
            "A word is a decimal number from 0 to $largest, digits only; blanks or tabs separate words; # begins a comment."
        # Only digits, blanks and tabs are left, so that the splitting expands nothing.
        for word in $line; do
            digits=$word
            [[ $word != 0?* || ! $word =~ $zeros ]] || digits=${BASH_REMATCH[1]}
            if [[ ${#digits} -gt 10 || ${#digits} -eq 10 && $digits > $largest ]]; then
                unreadable "'$(shown "$word")' is above $largest, the largest word."
            fi
            words+=("$digits")
        done
    done
}

# The first word of a line that has a character of this kind, as it may be shown.
word_with() { [[ $2 =~ [^$' \t']*$1[^$' \t']* ]] && shown "${BASH_REMATCH[0]}"; }

# Stops read_words at its present line.
unreadable() { stop "$file, line $((number + 1)): $1" "${@:2}" "Nothing was run."; }

# Words, as read_words leaves them, as bytes, each lowest byte first.
put_words() {
    [ $# -gt 0 ] || return 0
    printf '%b' "$(printf '%08x\n' "$@" | sed 's/\(..\)\(..\)\(..\)\(..\)/\\x\4\\x\3\\x\2\\x\1/' | tr -d '\n')" 2>/dev/null
}

need() {
    command -v "$1" >/dev/null || stop "$1 is not in PATH: $2"
}

# Builds the crate NAME as target/PRODUCT by tools/build where it is missing or older than a file of the crates.
build() {
    local name=$1 product=$2 newer began log=$root/target/examples/build.log
    if [ -e "$root/target/$product" ]; then
        # rt writes into a crate's folder out, which no build reads.
        newer=$(find "$root/crates.txt" -newer "$root/target/$product" -print &&
            find "$root/crates" -mindepth 2 \( -name must-fail -o -name out \) -prune -o -newer "$root/target/$product" -print -quit)
        newer=${newer%%$'\n'*}
        [ -n "$newer" ] || return 0
        need rt "target/$product is older than ${newer#"$root"/} and has to be built anew by the Rattle kit."
        say "target/$product is older than ${newer#"$root"/}: proving and building what has changed, seconds to minutes"
    else
        need rt "target/$product has to be built by the Rattle kit (README.md)."
        say "target/$product is not built yet: proving and building it with all that it stands on, which takes minutes to an hour the first time"
    fi
    mkdir -p -- "${log%/*}" || stop "target/ cannot be written to."
    printf -v began '%(%s)T' -1
    "$root/tools/build" "$name" 2>&1 | while IFS= read -r line; do
        printf '%s\n' "$line"
        [[ $line != 'rt: chose --jobs '*' for '* ]] || say "proving ${line##* }"
    done >"$log"
    if [ "${PIPESTATUS[0]}" -ne 0 ] || [ ! -e "$root/target/$product" ]; then
        grep -v '^rt: chose --jobs' "$log" >&2
        stop "target/$product could not be built by 'tools/build $name': see above, or the whole of target/build.log."
    fi
    # As old as the build's beginning: what changed meanwhile is newer.
    touch -c -d "@$began" -- "$root/target/$product"
}

build_program() { build "$1" "bin/$1"; }

build_exports() { build exports staticlib/libexports.a; }

# run_c NAME: builds examples/NAME.c with the exported calls, hands it the words that were read, prints its answer and exits with its status.
run_c() {
    local program=$root/target/examples/$1 answer status
    need gcc "examples/$1.c has to be built."
    build_exports
    mkdir -p -- "${program%/*}" && gcc -O2 -Wall -Wextra -Werror "$examples/$1.c" -o "$program" -L"$root/target/staticlib" -lexports ||
        stop "examples/$1.c could not be built."
    answer=$(put_words "${#words[@]}" "${words[@]}" | "$program")
    status=$?
    [ -z "$answer" ] || printf '%s\n' "$answer" || exit 2
    case $status in
    0 | 2) ;;
    1) case $answer in *'refused '*) say "README.md, 'The numbers of a refusal', says what number ${answer##*refused } means" ;; esac ;;
    *) stop "target/examples/$1 broke off." ;;
    esac
    exit "$status"
}
