# The script ./list: what it prints, says and ends with; sourced by host/check.
# shellcheck shell=sh disable=SC2154 # variables of host/check

# lists NAME STATUS PRINTED SAID WORDS: first lines of both outputs, with these words and $input as standard input.
lists() {
  name="./list, $1" status=$2 printed=$3 said=$4
  shift 4
  "$list" "$@" < "$input" > printed 2> said
  same "$name: status" "$status" $?
  same "$name: printed" "$printed" "$(head -n 1 printed)"
  same "$name: said" "$said" "$(cat said)"
}
list=$root/list input=/dev/null
# Proved here if it never was, so that what is said while proving is not compared.
"$list" mug.psp > listed 2> said
same "./list: status of a file" 0 $?
"$psp" list mug.psp > expected
same "./list: the listing is that of psp list" "$(cat expected)" "$(cat listed)"

lists "a refused file" 1 "answer 2 place 517 entries 3" "" cut.psp
same "./list, a refused file: entries" 4 "$(wc -l < printed | tr -d ' ')"
head -c 65536 /dev/zero > long.psp
lists "65,536 bytes" 1 "answer 3 place 0 entries 0" "" long.psp
head -c 65537 /dev/zero > long.psp
lists "65,537 bytes" 1 "answer 1 place 0 entries 0" \
  'list: "long.psp" is over 65,536 bytes, the limit of this program: psp list takes larger files' long.psp
cp grey521.psp full.psp
blocks=0
while [ $blocks -lt 600 ]; do
  printf '~BK\000\014\000\000\000\000\000\000\000\000\000'
  blocks=$((blocks + 1))
done >> full.psp
lists "more than 512 blocks" 1 "answer 12 place 7633 entries 512" \
  'list: "full.psp" has more than 512 blocks, the room of this program: psp list takes more' full.psp
same "./list, more than 512 blocks: entries" 513 "$(wc -l < printed | tr -d ' ')"

lists "a missing file" 2 "" 'list: cannot read "no?where": there is no such file' "$(printf 'no\033where')"
lists "a missing file with accents" 2 "" "$(printf 'list: cannot read "\303\211t\303\251?31m": there is no such file')" \
  "$(printf '\303\211t\303\251\302\23331m')"
lists "a folder" 2 "" 'list: cannot read ".": it is a directory' .
lists "two files" 2 "" "list: wrong use: one file, as in list FILE or list < FILE" mug.psp mug.psp
# Who is root may open any file, but nobody a terminal that is not there.
setsid -w "$list" /dev/tty > printed 2> said
same "./list, a file that cannot be opened: status" 2 $?
same "./list, a file that cannot be opened: said" 'list: cannot read "/dev/tty": it cannot be opened' "$(cat said)"
lists "a file that opens and cannot be read" 2 "" 'list: cannot read "/proc/self/mem"' /proc/self/mem
input=mug.psp
lists "standard input" 0 "answer 0 place 7769 entries 54" ""
input=.
lists "a folder as standard input" 2 "" "list: cannot read standard input: it is a directory"
"$list" <&- > printed 2> said
same "./list, standard input closed: status" 2 $?
same "./list, standard input closed: said" "list: cannot read standard input: it is closed" "$(cat said)"

"$list" mug.psp >&- 2> said
same "./list, standard output closed: status" 2 $?
same "./list, standard output closed: said" "list: cannot write the listing" "$(cat said)"
"$list" mug.psp > /dev/full 2> said
same "./list, a full disk: status" 2 $?
same "./list, a full disk: said" "list: cannot write the listing" "$(cat said)"

ln -s "$root/list" linked-list
list=./linked-list input=/dev/null
lists "through a link" 0 "answer 0 place 7769 entries 54" "" mug.psp

# A path on which everything is but the kit.
mkdir without
for tool in cat dirname head readlink sed tr uname; do ln -s "$(command -v $tool)" without/$tool; done
PATH=$PWD/without "$root/list" mug.psp > printed 2> said
same "./list, without the kit: status" 2 $?
same "./list, without the kit: said" \
  "program: psplist is proved, built and run by the Rattle kit, whose command is rt, and that is not installed: see README.md" "$(cat said)"

# A program that was never built, and a kit that does not prove it.
mkdir -p unproved/crates/psplist refusing
cp "$root/list" "$root/program" unproved/
printf "#!/bin/sh\necho not proved >&2\nexit 1\n" > refusing/rt
chmod +x refusing/rt
PATH=$PWD/refusing:$PATH unproved/list mug.psp > printed 2> said
same "./list, not proved: status" 2 $?
same "./list, not proved: printed" "" "$(cat printed)"
same "./list, not proved: said" "program: psplist is proved and built first, which takes some minutes, once
not proved" "$(cat said)"
