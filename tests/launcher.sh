#!/usr/bin/env bash
# ./tolmupung on a clone in which nothing is built yet, with a toolchain that hands out a library built before: what it builds and
# when, what it says, and how it fails. Usage: tests/launcher.sh LIBRARY
set -euo pipefail
cd "$(dirname "$0")/.."
archive=$(realpath "$1")
folder=$(mktemp -d)
trap 'rm -rf "$folder"' EXIT
clone="$folder/a clone"
mkdir -p "$clone/crates/tolmupung" "$folder/bin"
cp -r tolmupung crates.txt desk include examples "$clone"
libraries=$(sed -n 's/^tolmupung staticlib: *//p' crates.txt)
for crate in $libraries; do mkdir "$clone/crates/$crate"; done
cat > "$folder/bin/rt" << END
#!/bin/bash
[ "\$1" = lib ] || exit 2
[ ! -e "$folder/broken" ] || { echo 'rt: nothing is proved'; exit 1; }
[ "\${PWD##*/}" = tolmupung ] || exit 0
echo run >> "$folder/runs"
mkdir -p out
cp "$archive" out/libtolmupung.a
END
chmod +x "$folder/bin/rt"
export PATH="$folder/bin:$PATH"
cd "$folder"

fail() { echo "launcher: $*" >&2; exit 1; }
runs() { wc -l < runs; }
asks() { # status, standard output wanted; what it said on standard error is kept
    local status=0
    "$clone/tolmupung" check "$clone/examples/case1.dossier" > said 2> heard || status=$?
    [ "$status" -eq "$1" ] && [ "$(cat said)" = "$2" ] || fail "status $status and not $1: $(cat said heard)"
}

# nothing is built, and four start at once: one builds
for start in 1 2 3 4; do
    "$clone/tolmupung" check "$clone/examples/case1.dossier" > "said$start" 2> "heard$start" &
done
wait
[ "$(cat said1 said2 said3 said4 | sort -u)" = 'cheapest 40' ] || fail "four at once: $(cat said? heard?)"
[ "$(runs)" -eq 1 ] && [ "$(grep -l 'building the desk' heard? | wc -l)" -eq 1 ] || fail "built more than once: $(cat heard?)"
all=$(wc -w <<< "$libraries")
grep -q "^  1 of $all: basics proved ([0-9]* s)\$" heard? || fail "no progress: $(cat heard?)"
grep -q "^  $all of $all: dossiers proved ([0-9]* s)\$" heard? || fail "not all told: $(cat heard?)"
grep -q 'waiting for another start' heard? || fail "nobody waited: $(cat heard?)"

# what was built is kept, and nothing is said
asks 0 'cheapest 40'
[ ! -s heard ] && [ "$(runs)" -eq 1 ] || fail "built again: $(cat heard)"

# by a link, from another folder
ln -s "$clone/tolmupung" linked
[ "$(cd /; "$folder/linked" check "$clone/examples/none.dossier")" = none ] || fail 'by a link'

# a source has changed
sleep 0.01
touch "$clone/crates/changed"
asks 0 'cheapest 40'
[ "$(runs)" -eq 2 ] || fail 'a changed source was not built'

# the toolchain fails, or is not there
touch "$clone/crates/changed" "$folder/broken"
asks 2 ''
grep -q 'rt: nothing is proved' heard && grep -q 'the library could not be built' heard || fail "$(cat heard)"
rm "$folder/bin/rt"
for tool in bash cat dirname readlink find flock mkdir touch cp sed; do ln -s "$(command -v $tool)" "$folder/bin/$tool"; done
PATH="$folder/bin" asks 2 ''
grep -q 'rt is needed to build the library' heard || fail "$(cat heard)"

# nowhere to build
rm -rf "$clone/target"
touch "$clone/target"
asks 2 ''
grep -q 'cannot be made' heard || fail "$(cat heard)"
echo 'it builds what it lacks, once, keeps it, and says what it does and why it fails'
