# Damaged files and saved tables: every command must end with status 0, 1 or 2, the listing must be the independent implementation's, and a
# saved table's answer document 02's; sourced by host/check.
# shellcheck shell=sh disable=SC2154 # variables of host/check

seed=1
# Sets $drawn to the next number below $1: a linear congruence, the same numbers in every run.
draw() {
  seed=$(((seed * 1103515245 + 12345) % 2147483648))
  drawn=$((seed / 65536 % $1))
}

# damage FILE NEAR: damages one byte or cuts the file; most bytes of interest are near the start.
damage() {
  size=$(wc -c < "$1")
  draw 2
  if [ "$drawn" -eq 0 ]; then draw "$size"; else draw "$2"; fi
  [ "$drawn" -lt "$size" ] || return 0
  at=$drawn
  draw 8
  case $drawn in
  0) head -c "$at" "$1" > shorter && mv shorter "$1" ;;
  1) put "$1" "$at" '\000' ;;
  2) put "$1" "$at" '\377' ;;
  3) put "$1" "$at" '\200' ;;
  *) draw 8 && put "$1" "$at" "\\00$drawn" ;;
  esac
}

run=0
while [ $run -lt 300 ]; do
  case $((run % 9)) in
  0) cp mug.psp fuzz.psp ;;
  1) cp bits4.psp fuzz.psp ;;
  2) cp skips.psp fuzz.psp ;;
  3) cp greys.psp fuzz.psp ;;
  4) cp palette.psp fuzz.psp ;;
  5) cp mug-unpadded.psp fuzz.psp ;;
  6) cp rows1-unpadded.psp fuzz.psp ;;
  7) cp alphas.psp fuzz.psp ;;
  8) cp early.psp fuzz.psp ;;
  esac
  damage fuzz.psp 800
  [ $((run % 3)) -ne 0 ] || damage fuzz.psp 800
  "$psp" list fuzz.psp > listed 2> said
  listing=$?
  ends_well "fuzz $run: list" $listing
  # Of each wrong field the entries before it tell which it is.
  ! grep -q 'a field here' said || bad "fuzz $run: a field without a name"
  "$reference" list < fuzz.psp > expected
  cmp -s listed expected || bad "fuzz $run: the listing is not the independent one's"
  "$psp" steps fuzz.psp > walked 2> said
  same "fuzz $run: status of steps" $listing $?
  walks "fuzz $run"
  case $((run % 8)) in
  0) set -- layers fuzz.psp ;;
  1) set -- facts fuzz.psp ;;
  2) set -- alphas fuzz.psp ;;
  3) set -- palette fuzz.psp ;;
  4) set -- plane fuzz.psp 0 0 $((run / 8 % 4)) -o fuzz.pgm ;;
  5) set -- plane fuzz.psp alpha 0 -o fuzz.pgm ;;
  6) set -- compare fuzz.psp true.csv ;;
  7)
    # Without its first words it is taken for a table.
    tail -c +33 fuzz.psp > fuzz.csv
    set -- compare mug.psp fuzz.csv
    ;;
  esac
  "$psp" "$@" > printed 2> said
  ends_well "fuzz $run: $1" $?
  # What layers, facts and alphas show of a refused file says so first.
  case $listing-$((run % 8))-$(head -n 1 printed) in
  1-[012]- | 1-[012]-refused:* | [02]-* | 1-[3-7]-*) good ;;
  *) bad "fuzz $run: $1 of a refused file" ;;
  esac
  run=$((run + 1))
done

# judged FILE: sets $number to what document 02 answers for a saved table.
judged() {
  number=$(od -An -v -tu1 "$1" | awk '
    function big(at) { return ((bytes[at] * 256 + bytes[at + 1]) * 256 + bytes[at + 2]) * 256 + bytes[at + 3] }
    function judge() {
      if (size < 9 || big(0) != size - 4) return 70
      if (bytes[4] != 1 && bytes[4] != 2) return 71
      if (5 + 56 * big(5) != size - 4) return 72
      version = 1
      for (at = 9; at < size; at += 56) if (big(at + 40) > 4096 || big(at + 44) > 4096) version = 2
      return bytes[4] == version ? 0 : 74
    }
    BEGIN { size = 0 }
    { for (k = 1; k <= NF; k++) bytes[size++] = $k }
    END { print judge() }')
}

run=0
while [ $run -lt 120 ]; do
  case $((run % 5)) in
  0) cp mug.table fuzz.table ;;
  1) cp alphas.table fuzz.table ;;
  2) cp odd.table fuzz.table ;;
  3) cp sheet.table fuzz.table ;;
  4) cp grey521.table fuzz.table ;;
  esac
  damage fuzz.table 12
  [ $((run % 2)) -ne 0 ] || damage fuzz.table 12
  "$psp" list fuzz.table > listed 2> said
  listing=$?
  judged fuzz.table
  # One that is taken for artwork, by its first bytes, has a listing's answer, and is refused.
  case $number-$listing-$(cat said) in
  0-0- | $number-1-"psp: refused: $number, taken for a saved table: "* | 7[012]-1-"psp: refused: "[23]" at 0, "*) good ;;
  *) bad "fuzz $run: a saved table: $number and not $listing, $(cat said)" ;;
  esac
  for words in 'layers fuzz.table' 'alphas fuzz.table' 'compare fuzz.table true.csv' 'facts fuzz.table' 'compare mug.psp fuzz.table'; do
    # shellcheck disable=SC2086 # words
    "$psp" $words > printed 2> said
    ends_well "fuzz $run: $words" $?
  done
  run=$((run + 1))
done
