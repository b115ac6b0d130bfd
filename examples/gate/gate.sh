#!/usr/bin/env bash
# Gates a release: compares each schema of a folder with the schema of the same name in another folder.
#
#   gate.sh [-j JOBS] [-c FOLDER] MODE OLD NEW
#
# MODE  backward  what the old schema accepts, the new one accepts (new readers take stored data)
#       forward   what the new schema accepts, the old one accepts (old readers take new data)
#       full      both
# -j    how many comparisons run side by side (4)
# -c    where certificates and documents are stored (beside the schemas of NEW)
#
# Schemas are the files *.json below OLD and NEW, links and hidden ones too. Each comparison prints a line, in the order
# of names:
#
#   pass NAME DIRECTION FILE       the certificate, which `jsat check` accepted
#   breaks NAME DIRECTION DOCUMENT a document that only the schema that has to be included accepts
#   open NAME DIRECTION WORDS      a limit was passed, a schema was refused, or a file couldn't be read or stored
#   added NAME, removed NAME       only NEW has it, only OLD has it
#
# Status 0: all pass. 1: something breaks or was removed. 2: other words, or no schema in OLD. 3: nothing breaks, but
# something is open.
# JSAT names the program; without it, `jsat` is looked for as a command.
set -u

program=${JSAT:-jsat}

usage() {
    sed -n '4s/^#  *//p' "$0" >&2
    exit 2
}

# What is found of one schema in one direction, as a line. The certificate or document is stored.
compare() {
    local old=$1 new=$2 stored=$3 name=$4 direction=$5
    local first=$old/$name second=$new/$name
    if [ "$direction" = forward ]; then
        first=$new/$name second=$old/$name
    fi
    local kept=$stored/${name%.json}.$direction
    # (of an earlier comparison nothing is left beside what this one stores)
    if ! mkdir -p "$(dirname "$kept")" || ! rm -f "$kept.certificate" "$kept.document" || ! : >"$kept.text"; then
        echo "open $name $direction nothing can be stored: $kept"
        return
    fi
    "$program" include "$first" "$second" >"$kept.text"
    case $? in
        0)
            mv "$kept.text" "$kept.certificate"
            if [ "$("$program" check "$first" "$second" "$kept.certificate")" = accepted ]; then
                echo "pass $name $direction $kept.certificate"
            else
                echo "open $name $direction the certificate is rejected: $kept.certificate"
            fi
            ;;
        1)
            mv "$kept.text" "$kept.document"
            if [ "$(head -n 1 "$kept.document")" = document ]; then
                echo "breaks $name $direction $(tail -n +2 "$kept.document")"
            else
                echo "breaks $name $direction $kept.document"
            fi
            ;;
        *)
            echo "open $name $direction $(cat "$kept.text")"
            rm "$kept.text"
            ;;
    esac
}

if [ "${1-}" = --one ]; then
    compare "$2" "$3" "$4" "$7" "$8" >"$5/$6"
    exit 0
fi

jobs=4
stored=
while getopts j:c: option; do
    case $option in
        j) jobs=$OPTARG ;;
        c) stored=$OPTARG ;;
        *) usage ;;
    esac
done
shift $((OPTIND - 1))
[ $# -eq 3 ] || usage
mode=$1 old=${2%/} new=${3%/}
case $mode in
    backward | forward) directions=$mode ;;
    full) directions='backward forward' ;;
    *) usage ;;
esac
[ -d "$old" ] && [ -d "$new" ] || usage
stored=${stored:-$new}

results=$(mktemp -d) || exit 3
trap 'rm -rf "$results"' EXIT

schemas() (
    set -o pipefail
    cd "$1" && find -L . ! -type d -name '*.json' | sed 's|^\./||' | LC_ALL=C sort
)
is_open=0
old_names=$(schemas "$old") || is_open=1
new_names=$(schemas "$new") || is_open=1
[ "$is_open" = 0 ] || echo "open . . a folder below $old or $new couldn't be read"
if [ -z "$old_names" ]; then
    echo "gate.sh: no schema *.json below $old" >&2
    exit 2
fi

# The names that both have (12), or only the new one (13) or the old one (23).
names() {
    LC_ALL=C comm "-$1" <(printf '%s\n' "$old_names") <(printf '%s\n' "$new_names") | sed '/^$/d'
}

# The number of each comparison, with its name and direction, ended by null bytes, so that names may have blanks.
comparisons() {
    local number=0 name direction
    while IFS= read -r name; do
        for direction in $directions; do
            number=$((number + 1))
            printf '%s\0%s\0%s\0' "$number" "$name" "$direction"
        done
    done < <(names 12)
}
comparisons | xargs -0 -r -n 3 -P "$jobs" bash "$0" --one "$old" "$new" "$stored" "$results"

# Whatever became of the files of results, each comparison counts: what was killed has no line, and isn't taken for what
# passes.
breaks=0
while IFS= read -r -d '' number && IFS= read -r -d '' name && IFS= read -r -d '' direction; do
    line=
    [ -s "$results/$number" ] && line=$(cat "$results/$number")
    [ -n "$line" ] || line="open $name $direction the comparison didn't come to its end"
    case $line in
        "pass "*) ;;
        "breaks "*) breaks=1 ;;
        *) is_open=1 ;;
    esac
    printf '%s\n' "$line"
done < <(comparisons)
names 13 | sed 's/^/added /'
removed=$(names 23)
if [ -n "$removed" ]; then
    breaks=1
    printf '%s\n' "$removed" | sed 's/^/removed /'
fi
[ "$breaks" = 0 ] || exit 1
[ "$is_open" = 0 ] || exit 3
exit 0
