#!/usr/bin/env bash
# The program verdict on whole dossiers: the line that it writes for each, and that it reads no further than it needs.
# The dossiers are made by the second program. Usage: tests/verdict.sh VERDICT SECOND
set -euo pipefail
verdict=$1
second=$2
folder=$(mktemp -d)
trap 'rm -rf "$folder"' EXIT

bytes() { printf '%b' "$(tr -d ' \n' <<< "$1" | sed 's/../\\x&/g')"; }

said=0
told() { # line, what was handed in; the program has ended well, and its whole output is the line
    printf '%s\n' "$1" | cmp -s - "$folder/line" || { echo "'$(cat "$folder/line")' and not '$1' for $2" >&2; exit 1; }
    said=$((said + 1))
}

expect() { # line, dossier in hex
    bytes "$2" > "$folder/dossier"
    "$verdict" < "$folder/dossier" > "$folder/line"
    told "$1" "the dossier $2"
}

job=$("$second" make job P | tr -d ' \n')
plan=$("$second" make plan 1 | tr -d ' \n')
note=$("$second" make note "$job" "$plan")
hasty=${job:0:6}0c${job:8} # T 2: no plan meets the rules
none=$("$second" make note "$hasty" '')
whole=$("$second" make dossier "$job" "$plan" "$note")

expect 'cheapest 0' '40 00 06 00 02 00 01 10 00 00 00 20 00 20 00 38' # case 12
expect 'cheapest 40' "$whole"
expect 'none' "$("$second" make dossier "$hasty" '' "$none")"
expect 'refused 0 2' "$("$second" make dossier "$plan" "$plan" "$note")"
expect 'refused 1 10' "$("$second" make dossier "$job" '20 0d 80' "$note")" # units and no operations
expect 'refused 2 41' "$("$second" make dossier "$job" '' "$note")"
expect 'refused 2 1' "$("$second" make dossier "$job" "$plan" '')"
expect 'refused 3 1' '40 00 06 00 02 00'
expect 'refused 3 1' ''
expect 'refused 3 2' '50 00 06 00 02 00 01 10 00 00 00 20 00 20 00 38'
expect 'refused 3 6' '41 00 06 00 02 00 01 10 00 00 00 20 00 20 00 38'
expect 'refused 3 50' '40 00 06 00 02 00 01 10 00 00 00 20 00 20 00'

# in pieces, through a pipe
bytes "$whole" > "$folder/dossier"
{ head -c 20 "$folder/dossier"; sleep 0.2; tail -c +21 "$folder/dossier"; } | "$verdict" > "$folder/line"
told 'cheapest 40' 'a dossier in two pieces'

# input that cannot be read is none
"$verdict" <&- > "$folder/line"
told 'refused 3 1' 'a closed input'

# the longest dossier, and a byte more
head -c 65536 /dev/zero > "$folder/long"
"$verdict" < "$folder/long" > "$folder/line"
told 'refused 3 2' '65,536 bytes'
head -c 65537 /dev/zero > "$folder/long"
"$verdict" < "$folder/long" > "$folder/line"
told 'refused 3 51' '65,537 bytes'

# of a longer file, what stands behind byte 65,537 is left unread
head -c 200000 /dev/zero > "$folder/long"
exec 3< "$folder/long"
"$verdict" <&3 > "$folder/line"
told 'refused 3 51' '200,000 bytes'
left=$(wc -c <&3)
[ "$left" -eq $((200000 - 65537)) ] || { echo "of 200,000 bytes $left were left unread" >&2; exit 1; }

# a line that cannot be written
bytes "$whole" > "$folder/dossier"
status=0
"$verdict" < "$folder/dossier" > /dev/full 2> "$folder/said" || status=$?
[ "$status" -eq 1 ] && [ -s "$folder/said" ] || { echo "a full disk: status $status" >&2; exit 1; }
echo "$said inputs, each with the line that it should have"
