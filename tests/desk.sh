#!/usr/bin/env bash
# The desk as its users have it: every command on every example, seeded sheets, damaged and missing files, a reader that has
# gone, outputs that cannot be written. Usage: tests/desk.sh DESK SECOND
set -euo pipefail
cd "$(dirname "$0")/.."
desk=$(realpath "$1")
second=$(realpath "$2")
folder=$(mktemp -d)
trap 'rm -rf "$folder"' EXIT
cp examples/*.{job,plan,note,dossier,txt,svg} "$folder"
cd "$folder"
mkdir out

held=0
told=0
fail() { echo "desk: $*" >&2; exit 1; }
holds() { held=$((held + 1)); }
section() { echo "$1: $((held - told)) checks"; told=$held; }

run() { # words of the desk: its status, and what it says on its two outputs
    status=0
    "$desk" "$@" > out/said 2> out/heard || status=$?
}
ends() { # status, what is wanted on standard output, words of the desk
    local wanted=$1 line=$2
    shift 2
    run "$@"
    [ "$status" -eq "$wanted" ] || fail "status $status and not $wanted: $*: $(cat out/said out/heard)"
    [ "$(cat out/said)" = "$line" ] || fail "'$(cat out/said)' and not '$line': $*"
    holds
}
complains() { # the one line wanted on standard error, words of the desk
    local line=$1
    shift
    ends 2 '' "$@"
    [ "$(cat out/heard)" = "$line" ] || fail "'$(cat out/heard)' and not '$line': $*"
}
same() { cmp -s "$1" "$2" || fail "$1 and $2 differ"; holds; }
length() { wc -c < "$1"; }
parses() {
    python3 -c 'import sys, xml.dom.minidom as dom; [dom.parse(name) for name in sys.argv[1:]]' "$@" || fail 'an SVG does not parse'
    holds
}
bytes() { printf '%b' "$(tr -d ' \n' | sed 's/../\\x&/g')"; }

# every sheet is shown as the text beside it; the text of a job or a plan makes the sheet, and no other does
for sheet in *.job *.plan; do
    ends 0 "$(cat "$sheet.txt")" show "$sheet"
    ends 0 "written, $(length "$sheet") bytes, in out/made" make "$sheet.txt" -o out/made
    same out/made "$sheet"
done
for sheet in *.note *.dossier; do
    ends 0 "$(cat "$sheet.txt")" show "$sheet"
    complains "$sheet.txt, line 1: \`${sheet##*.}\` where \`job\` or \`plan\` should stand" make "$sheet.txt" -o out/not-made
done
section 'examples shown and made'

# every plan: judged, searched for, drawn, moved by nothing
plan_holds() { # name, cost, visits
    local job=$1.job plan=$1.plan cost=$2 visits=$3
    ends 0 "passed, cost $cost" judge "$job" "$plan"
    ends 0 "found, cost $cost, visits $visits, in out/found" search "$job" -o out/found
    same out/found "$plan"
    ends 0 "found, cost $cost, visits $visits" search "$job" --budget "$visits"
    ends 1 "spent, visits $((visits - 1)): visits exceed the budget (30)" search "$job" --budget $((visits - 1)) -o out/not-made
    ends 0 'drawn, in out/drawn.svg' draw "$job" "$plan" -o out/drawn.svg
    same out/drawn.svg "$1.svg"
    parses out/drawn.svg
    ends 0 "written, $(length "$plan") bytes, in out/moved" slide "$job" "$plan" 0 -o out/moved
    same out/moved "$plan"
    ends 0 "written, $(length "$plan") bytes, in out/moved" tidy "$job" "$plan" -o out/moved
    same out/moved "$plan"
}
plan_holds case1 40 14
plan_holds case8 10 6
plan_holds diffeq3 150 750161
plan_holds diffeq4 100 278130
plan_holds diffeq5 100 464987
plan_holds diffeq6 100 3484475
plan_holds diffeq7 70 3773133
plan_holds wheel 222 31077

drawn_refused() { # name, its job, the refusal
    ends 1 "drawn, in out/drawn.svg
$1.plan: $3" draw "$2" "$1.plan" -o out/drawn.svg
    same out/drawn.svg "$1.svg"
    parses "$1.svg"
}

# the plan of units and no operations
empty="refused by 10, paper 1 (plan): plan's N or K differs from the job's"
counts='0 rows and 3 selection bits for 3 operations and 3 instances'
for command in judge tidy; do ends 1 "empty.plan: $empty: $counts" $command case1.job empty.plan; done
ends 1 "empty.plan: $empty: $counts" slide case1.job empty.plan 1
ends 1 "empty.plan: $empty: $counts" note case1.job empty.plan -o out/not-made
drawn_refused empty case1.job "$empty"

# the unit that takes an addition while it multiplies
busy='refused by 17, paper 1 (plan): resource: two operations on one instance must have different starts, and the later start must exceed the earlier by at least the spacing of the earlier operation'
ends 1 "busy.plan: $busy" judge case8.job busy.plan
drawn_refused busy case8.job "$busy"

# plans slid, tidied, and not to be found
sed 's/deadline 3/deadline 4/' case1.job.txt > out/later.job.txt
run make out/later.job.txt -o out/later.job
ends 0 'written, 6 bytes, in out/slid' slide out/later.job case1.plan 1 -o out/slid
ends 0 'written, 6 bytes, in out/moved' slide out/later.job out/slid -1 -o out/moved
same out/moved case1.plan
ends 1 'case1.plan: refused by 21, paper 1 (plan): a moved start leaves its limits' slide case1.job case1.plan 1
ends 1 'refused by 20, paper 4 (the request itself): slide distance outside -31 to 31' slide case1.job case1.plan -2147483648
sed 's/0 1 1/1 0 1/; s/instance 1/instance 0/' case1.plan.txt > out/untidy.plan.txt
run make out/untidy.plan.txt -o out/untidy.plan
ends 1 'out/untidy.plan: refused by 11, paper 1 (plan): selection order: within a type a selected instance precedes an unselected one' \
    judge case1.job out/untidy.plan
ends 0 'written, 6 bytes, in out/moved' tidy case1.job out/untidy.plan -o out/moved
sed 's/0 1 1/1 1 1/; s/instance 1/instance 0/' case1.plan.txt > out/dear.plan.txt
run make out/dear.plan.txt -o out/dear.plan
ends 0 'passed, cost 50' judge case1.job out/dear.plan
same out/moved case1.plan
ends 0 'it has 6 bytes; -o FILE writes it' tidy case1.job case1.plan
ends 1 'none, visits 5: no plan meets the rules (31)' search none.job -o out/not-made
section 'plans'

# every dossier: its note written, its papers packed, checked and taken apart
dossier_holds() { # name, status and line of the check, the papers
    local dossier=$1.dossier wanted=$2 line=$3
    shift 3
    ends "$wanted" "$line" check "$dossier"
    run pack "$@" -o out/packed
    [ "$status" -eq 0 ] && grep -q "^written, $(length "$dossier") bytes, in out/packed: job " out/said || fail "pack $*: $(cat out/said)"
    same out/packed "$dossier"
    rm -f out/stem.*
    ends 0 "$(for paper in "$@"; do echo "written, $(length "$paper") bytes, in out/stem.${paper##*.}"; done)" unpack "$dossier" -o out/stem
    [ "$(ls out/stem.* | wc -l)" -eq $# ] || fail "$dossier has other papers than $*"
    for paper in "$@"; do same "out/stem.${paper##*.}" "$paper"; done
}
dossier_holds case1 0 'cheapest 40' case1.job case1.plan case1.note
dossier_holds diffeq4 0 'cheapest 100' diffeq4.job diffeq4.plan diffeq4.note
dossier_holds wheel 0 'cheapest 222' wheel.job wheel.plan wheel.note
dossier_holds none 0 none none.job none.note
dossier_holds empty 1 'refused 1 10' case1.job empty.plan case1.note
for name in case1 diffeq4 wheel; do
    ends 0 "written, $(length $name.note) bytes, in out/noted" note $name.job $name.plan -o out/noted
    same out/noted $name.note
done
ends 0 "written, 5 bytes, in out/noted" note none.job -o out/noted
same out/noted none.note
ends 1 'refused by 44, paper 2 (note): all placed and cheaper, or verdict 0; there is a plan' note case1.job -o out/not-made
ends 1 'refused by 44, paper 2 (note): all placed and cheaper, or verdict 0; another plan costs less' note case1.job out/dear.plan -o out/not-made
ends 1 'refused by 22, paper 4 (the request itself): output too short; 60,000 bytes are full before its walk has ended' \
    note diffeq3.job diffeq3.plan -o out/not-made
head -c 60000 /dev/zero > out/long
ends 1 'refused by 51, paper 3 (dossier): dossier over 65,536 bytes' pack out/long out/long -o out/not-made
head -c 65536 /dev/zero > out/long
ends 1 'refused 3 2' check out/long
head -c 65537 /dev/zero > out/long
ends 1 'refused 3 51' check out/long
run unpack case1.dossier -o out/stem
complains 'out/stem.plan is there, and this dossier has no plan; take another stem' unpack none.dossier -o out/stem
complains '-o wants a stem, such as out/name' unpack none.dossier -o out/
cp case1.dossier out/own.note
complains 'the dossier itself would be written over; take another stem' unpack out/own.note -o out/own

[ "$("$desk" check /dev/stdin < case1.dossier)" = 'cheapest 40' ] || fail 'a dossier on standard input'
holds

# several dossiers, on all cores, under names that are no words
ends 1 'case1.dossier: cheapest 40
empty.dossier: refused 1 10
none.dossier: none' check case1.dossier empty.dossier none.dossier
[ "$(cat out/heard)" = "empty.dossier: $empty" ] || fail "$(cat out/heard)"
ends 0 'case1.dossier: cheapest 40
none.dossier: none' check case1.dossier none.dossier
ends 0 'none.dossier: none' check --names none.dossier
ends 2 'case1.dossier: cheapest 40
empty.dossier: refused 1 10' check case1.dossier missing.dossier empty.dossier
mkdir archive
for number in $(seq 200); do cp none.dossier "archive/$number.dossier"; done
cp case1.dossier $'archive/a name\nin two lines.dossier'
cp case1.dossier $'archive/\xff.dossier'
find archive -name '*.dossier' -print0 | xargs -0 -n 7 -P 4 "$desk" check --names > out/lines
[ "$(grep -ac ': none$' out/lines) $(grep -ac ': cheapest 40$' out/lines) $(wc -l < out/lines)" = '200 2 203' ] ||
    fail "the archive's lines: $(cat -v out/lines)"
grep -aq $'^archive/\xff.dossier: cheapest 40$' out/lines || fail 'a name was changed'
holds
# what is refused is told in whole lines too
for number in $(seq 200); do cp empty.dossier "archive/$number.dossier"; done
find archive -name '[0-9]*.dossier' -print0 | xargs -0 -n 7 -P 4 "$desk" check > /dev/null 2> out/lines || true
[ "$(grep -c "^archive/[0-9]*.dossier: $empty$" out/lines) $(wc -l < out/lines)" = '200 200' ] || fail "lines mix: $(cat out/lines)"
holds
section 'dossiers'

# sheets of any seed are shown and made again, and any plan is drawn beside any job
for seed in $(seq 2 101); do
    "$second" make job "$seed" | bytes > out/seeded.job
    "$second" make plan "$seed" | bytes > out/seeded.plan
    for sheet in out/seeded.job out/seeded.plan; do
        run show "$sheet"
        [ "$status" -eq 0 ] || fail "seed $seed: $(cat out/said out/heard)"
        cp out/said out/shown.txt
        ends 0 "written, $(length "$sheet") bytes, in out/made" make out/shown.txt -o out/made
        same out/made "$sheet"
    done
    run draw out/seeded.job out/seeded.plan -o "out/seeded-$seed.svg"
    [ "$status" -le 1 ] || fail "seed $seed: $(cat out/said out/heard)"
    run draw diffeq4.job out/seeded.plan -o "out/other-$seed.svg"
    [ "$status" -eq 1 ] || fail "seed $seed: $(cat out/said out/heard)"
done
parses out/*.svg
section 'seeded sheets'

# damaged sheets, cut, lengthened, emptied or with a bit changed: whatever is asked, the desk answers or refuses
python3 - << 'END'
import os
for form in ("job", "plan", "note", "dossier"):
    sheet = open(f"case1.{form}", "rb").read()
    damaged = {"cut": sheet[:-1], "longer": sheet + b"\0", "nothing": b""}
    for bit in range(0, 8 * len(sheet), 5):
        changed = bytearray(sheet)
        changed[bit // 8] ^= 128 >> bit % 8
        damaged[f"bit{bit}"] = bytes(changed)
    os.makedirs(f"damaged/{form}")
    for name, sheet in damaged.items():
        open(f"damaged/{form}/{name}", "wb").write(sheet)
END
survives() { # words of the desk
    run "$@"
    [ "$status" -le 2 ] || fail "status $status: $*: $(cat out/said out/heard)"
    holds
}
for sheet in damaged/*/*; do survives show "$sheet"; done
for job in damaged/job/*; do
    survives judge "$job" case1.plan
    survives search "$job" --budget 1000
    survives note "$job" case1.plan
    survives draw "$job" case1.plan -o out/any.svg
done
for plan in damaged/plan/*; do
    survives judge case1.job "$plan"
    survives note case1.job "$plan"
    survives slide case1.job "$plan" 0
    survives tidy case1.job "$plan"
    survives draw case1.job "$plan" -o out/any.svg
done
for dossier in damaged/dossier/*; do
    survives check "$dossier"
    survives unpack "$dossier" -o out/any
done
ends 1 'damaged/job/cut: refused by 1, paper 0 (job): bits run out' judge damaged/job/cut case1.plan
ends 1 'case1.plan: refused by 2, paper 0 (job): form differs; it begins as a plan does' judge case1.plan case1.job
ends 1 'damaged/plan/longer: refused by 6, paper 1 (plan): fill not zero, or bytes follow' show damaged/plan/longer
ends 1 'refused 3 50' check damaged/dossier/cut
ends 1 'damaged/dossier/cut: refused by 50, paper 3 (dossier): lengths do not total the dossier' unpack damaged/dossier/cut -o out/not-made
ends 1 'refused 2 41' check damaged/dossier/bit540 # the note's verdict
complains 'damaged/plan/nothing begins as no job, plan, note or dossier does' show damaged/plan/nothing
ends 1 'damaged/plan/nothing: refused by 1, paper 1 (plan): bits run out' judge case1.job damaged/plan/nothing
complains 'damaged/plan/nothing is empty; for no plan leave its name out' note case1.job damaged/plan/nothing
{ cat case1.note; head -c 60000 /dev/zero; } > out/long.note
ends 1 'out/long.note: refused by 40, paper 2 (note): note over 60,000 bytes' show out/long.note
complains 'damaged/plan/nothing is empty; for no plan leave its name out' pack case1.job damaged/plan/nothing none.note -o out/not-made
printf 'words' > out/words
complains 'out/words begins as no job, plan, note or dossier does' show out/words
head -c 2000000 /dev/zero > out/long.txt
complains 'cannot read out/long.txt: it is too long for a text' make out/long.txt -o out/not-made
complains 'cannot read case1.dossier: it is not text' make case1.dossier -o out/not-made
section 'damaged sheets'

# missing files and unknown words: one line on standard error, nothing else
for words in 'check missing' 'judge missing case1.plan' 'judge case1.job missing' 'search missing' 'note missing' \
    'note case1.job missing' 'slide missing case1.plan 1' 'slide case1.job missing 1' 'tidy missing case1.plan' \
    'tidy case1.job missing' 'pack missing none.note -o out/not-made' 'pack case1.job missing none.note -o out/not-made' \
    'unpack missing -o out/not-made' 'show missing' 'make missing -o out/not-made' 'draw missing case1.plan -o out/not-made' \
    'draw case1.job missing -o out/not-made'; do
    complains 'cannot read missing: there is no such file; is its name right?' $words
done
complains 'cannot read archive: it is a folder; name a file' check archive
more='./tolmupung judge --help says more'
complains 'no command is called chekc; ./tolmupung --help lists them' chekc case1.dossier
complains "judge wants JOB PLAN, and one word was given; $more" judge case1.job
complains "judge wants JOB PLAN, and 3 words were given; $more" judge case1.job case1.plan case1.note
complains "judge has no option --budget; a file of that name is ./--budget, and $more" judge --budget 3 case1.job case1.plan
complains '--budget wants a whole number from 0 to 4294967295, not 4294967296' search case1.job --budget 4294967296
complains '--budget wants a whole number from 0 to 4294967295, not -1' search case1.job --budget -1
complains '--budget stands twice' search case1.job --budget 1 --budget 2
complains '-o wants a word behind it' search case1.job -o
complains 'the distance wants a whole number from -2147483648 to 2147483647, not far' slide case1.job case1.plan far
complains 'the distance wants a whole number from -2147483648 to 2147483647, not -9999999999' slide case1.job case1.plan -9999999999
complains 'pack wants JOB [PLAN] NOTE -o DOSSIER: -o says where to write' pack none.job none.note
complains '-o names case1.job, which search reads; take another name' search case1.job -o ./case1.job
cp case1.job out/-case1.job
(cd out; ends_here=$("$desk" show -- -case1.job); [ "$ends_here" = "$(cat ../case1.job.txt)" ]) || fail 'a name that begins with a dash'
holds
for command in check judge search note slide tidy pack unpack show make draw; do
    run $command --help
    [ "$status" -eq 0 ] && grep -q "^./tolmupung $command " out/said && [ ! -s out/heard ] || fail "$command --help"
    cp out/said out/help
    ends 0 "$(cat out/help)" $command -h
done
run --help
[ "$status" -eq 0 ] && [ "$(grep -c '^  [a-z]' out/said)" -eq 11 ] || fail '--help'
run
[ "$status" -eq 2 ] && [ ! -s out/said ] && grep -q 'COMMAND --help' out/heard || fail 'no words at all'
section 'missing files and unknown words'

# outputs that cannot be written
for words in 'search case1.job' 'note case1.job case1.plan' 'slide case1.job case1.plan 0' 'tidy case1.job case1.plan' \
    'pack none.job none.note' 'make case1.job.txt' 'draw case1.job case1.plan'; do
    complains 'cannot write nowhere/file: there is no such folder; make it first' $words -o nowhere/file
    complains 'cannot write archive: it is a folder; name a file' $words -o archive
    complains 'cannot write /dev/full: no space is left there' $words -o /dev/full
done
complains 'cannot write nowhere/stem.job: there is no such folder; make it first' unpack case1.dossier -o nowhere/stem
for words in 'check case1.dossier' 'judge case1.job case1.plan' 'judge case1.job empty.plan' 'show case1.job' 'show --help'; do
    status=0
    "$desk" $words > /dev/full 2> out/heard || status=$?
    [ "$status" -eq 2 ] && grep -q '^cannot write the answer: ' out/heard || fail "$words into a full disk"
    holds
done
# a write that fails leaves the file that was there, and nothing beside it
cp case1.plan out/old.plan
status=0
(trap '' XFSZ; ulimit -f 0; "$desk" draw case1.job case1.plan -o out/old.plan) > /dev/null 2>&1 || status=$?
[ "$status" -eq 2 ] && [ "$(ls out/old.plan*)" = out/old.plan ] || fail "a failed write: status $status, $(ls out/old.plan*)"
same out/old.plan case1.plan
# a reader that has gone: the desk ends at once, and says nothing
gone='import os, subprocess, sys; r, w = os.pipe(); os.close(r); p = subprocess.run(sys.argv[1:], stdout=w, stderr=subprocess.PIPE)
sys.exit(p.returncode if not p.stderr else 99)'
for words in 'show diffeq4.note' 'check --names none.dossier case1.dossier' 'judge case1.job case1.plan' '--help'; do
    status=0
    python3 -c "$gone" "$desk" $words || status=$?
    [ "$status" -eq 2 ] || fail "$words into a closed pipe: status $status"
    holds
done
section 'outputs that cannot be written'

# long work is told of on standard error: a file that is slow to come, and a walk that would take minutes
mkfifo slow.dossier
{ exec 3> slow.dossier; sleep 3; cat case1.dossier >&3; } & # opened when the desk opens it
run check case1.dossier slow.dossier none.dossier
[ "$status" -eq 0 ] && [ "$(cat out/heard)" = 'checked 2 of 3' ] || fail "progress of check: $(cat out/heard)"
holds
{ sed -n '1,/^operations/p' case1.job.txt | sed 's/deadline 3/deadline 5/'; for n in $(seq 0 23); do echo "$n kind 0"; done
    printf 'types\n0 cost 1 copies 7\nkind 0 time 1 interval 1\n'; } > out/endless.job.txt
run make out/endless.job.txt -o out/endless.job
"$desk" search out/endless.job > /dev/null 2> out/heard &
searching=$!
for _ in $(seq 100); do ! grep -q '^searching, [0-9]* s so far$' out/heard || break; sleep 0.2; done
kill $searching
grep -q '^searching, [0-9]* s so far$' out/heard || fail "progress of search: $(cat out/heard)"
holds
section 'progress'

! ls out/not-made* > /dev/null 2>&1 || fail 'something was written that should not be'
echo "$held checks of the desk, all hold"
