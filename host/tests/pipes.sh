# Readers that close their pipe, outputs that are full or closed, and pictures in files; sourced by host/check.
# shellcheck shell=sh disable=SC2154 # variables of host/check

"$psp" facts mug.psp 2> said | head -n 1 > printed
same "a closed pipe: first line" image "$(cat printed)"
same "a closed pipe: nothing said" "" "$(cat said)"

"$psp" list mug.psp > /dev/full 2> said
same "a full disk: status" 2 $?
same "a full disk: sentence" "psp: cannot write: No space left on device (os error 28)" "$(cat said)"

"$psp" list cut.psp > /dev/null 2>&-
same "standard error closed: status" 1 $?

same "a picture's header" "P5 96 64 255" "$(head -n 3 mug.pgm | tr '\n' ' ' | sed 's/ $//')"
same "a picture's length" $((13 + 96 * 64)) "$(wc -c < mug.pgm | tr -d ' ')"
[ ! -e refused.pgm ]
same "no picture of a refused plane" 0 $?
[ ! -e refused.table ]
same "no table of a refused file" 0 $?

# A picture is complete or not there: what stood in its place survives a disk that is full, and nothing stays beside it.
kept() {
  same "$1: status" 2 "$2"
  same "$1: the old file" old "$(cat old.pgm)"
  same "$1: nothing beside it" "" "$(find . -name '.psp-*')"
}
echo old > old.pgm
(
  trap '' XFSZ
  ulimit -f 4
  exec "$psp" plane mug.psp 0 0 1 -o old.pgm
) 2> said
kept "a full disk, a picture" $?
same "a full disk, a picture: sentence" 'psp: cannot write: "old.pgm": File too large (os error 27)' "$(cat said)"
"$psp" plane mug.psp 0 0 1 -o old.pgm
same "a picture is replaced" "0 6157" "$? $(wc -c < old.pgm | tr -d ' ')"

# The input is spared under any name, and as standard input and output.
cp mug.psp spared.psp
ln -f spared.psp hard.psp
ln -sf spared.psp soft.psp
spared() {
  same "the input as output, $1: status" 2 "$2"
  cmp -s spared.psp mug.psp
  same "the input as output, $1: unchanged" 0 $?
}
"$psp" plane spared.psp 0 0 1 -o hard.psp 2> said
spared "a hard link" $?
"$psp" plane soft.psp 0 0 1 -o spared.psp 2> said
spared "a symbolic link read" $?
"$psp" plane spared.psp 0 0 1 -o soft.psp 2> said
spared "a symbolic link written" $?
# shellcheck disable=SC2094 # this is what is tried
"$psp" plane - 0 0 1 -o spared.psp < spared.psp 2> said
spared "standard input" $?
# shellcheck disable=SC2094
"$psp" plane spared.psp 0 0 1 -o - >> spared.psp 2> said
spared "standard output" $?

echo old > linked.pgm
ln -sf linked.pgm link.pgm
"$psp" plane mug.psp 0 0 1 -o link.pgm
[ -L link.pgm ] && cmp -s linked.pgm old.pgm
same "a link stays, and its file is replaced" 0 $?

# Words with blanks at an end, and what a terminal would obey.
"$psp" list "$(printf 'no where\033[2J ')" 2> said
same "a path in quotes" 'psp: cannot read "no where\u{1b}[2J ": No such file or directory (os error 2)' "$(cat said)"
"$psp" 'open ' 2> said
same "a word in quotes" 'psp: wrong use: there is no command "open "' "$(cat said)"
"$psp" list "$(printf -- '--a\377')" 2> said
same "an option in quotes" 'psp: wrong use: no option "--a\xFF"' "$(cat said)"

# On a terminal, which script makes: names in their own bytes stay away from it, and a folder's progress is shown.
if command -v script > /dev/null; then
  for words in 'layers named.psp' 'layers steered.psp' 'alphas alpha-named.psp'; do
    script -qec "'$psp' $words --csv" /dev/null < /dev/null > printed
    same "a name that a terminal obeys, $words: status" 2 $?
    same "a name that a terminal obeys, $words" \
      "psp: wrong use: a name has bytes that a terminal obeys: write the table to a file" "$(tr -d '\r' < printed)"
  done
  script -qec "'$psp' compare --all good > /dev/null" /dev/null < /dev/null > printed
  same "progress on a terminal: status" 0 $?
  same "progress on a terminal" 1 "$(grep -c '1 of 1, "mug.psp" \.\.\.' printed)"
else
  echo "host/check: script is missing, so nothing is tried on a terminal" >&2
fi
