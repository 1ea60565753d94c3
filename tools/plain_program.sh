#!/usr/bin/env bash
# Makes the program over the plain store, whose rows are whole lists and whose indexes are sorted vectors.
#
# usage: tools/plain_program.sh FOLDER [--prove]
#
# Copies the repository, as it is committed, to FOLDER, with what was proved of it so far, and hands the program in the copy a
# Plain in place of a Paged: two words of crates/rv_cli/src/main.rt, and one of crates.txt. Then it builds that program, with
# --prove the proved one, as ./rvdyn does, and prints how to compare the two. Nothing in this repository is changed.
set -e
help() { sed -n '2,/^set/{/^set/d;s/^# \{0,1\}//;p}' "$0"; }
case ${1:-} in --help | -h) help; exit 0 ;; esac
[ $# = 1 ] || [ "$*" = "$1 --prove" ] && [ ! -e "$1" ] || { help >&2; exit 1; }
top=$(cd "$(dirname "$0")/.." && pwd)
git clone -q "$top" "$1"
copy=$(cd "$1" && pwd)
for out in "$top"/crates/*/out; do
    [ -d "$out" ] && cp -a "$out" "$copy/crates/$(basename "$(dirname "$out")")/"
done
rm -f "$copy/crates/rv_cli/out/rv_cli"
main=$copy/crates/rv_cli/src/main.rt
sed -i 's/^use rv_store::Paged;/use rv_plain::Plain;/; s/Paged::new(alloc)/Plain::new(alloc)/' "$main"
sed -i '/^rv_cli:/s/ rv_store/ rv_plain/' "$copy/crates.txt"
[ "$(grep -c Plain "$main")" = 2 ] && ! grep -q Paged "$main" || { echo "main makes its store in another way" >&2; exit 1; }
"$copy/rvdyn" ${2:+"$2"} < /dev/null
echo "tools/fuzz/random_scripts.py ./rvdyn 500 1 --beside $copy/rvdyn"
