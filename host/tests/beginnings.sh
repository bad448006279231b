# What is shown of every beginning of a file with a layer, a selection and alpha channels; sourced by host/check.
# shellcheck shell=sh disable=SC2154 # variables of host/check

# sections NAME: the facts in $facts are whole sections of the file's, behind the line that marks them in a refused one.
sections() {
  echo "$facts" | sed '1{/^refused: /d;}; /^$/d' > printed
  lines=$(wc -l < printed)
  same "$1" "$(head -n "$lines" whole)" "$(cat printed)"
  case $(sed -n "$((lines + 1))p" whole) in '  '*) bad "$1: a part of a section" ;; esac
}

"$psp" facts alphas.psp > whole
size=$(wc -c < alphas.psp) length=0 before='' facts_before=''
while [ $length -lt "$size" ]; do
  head -c $length alphas.psp > beginning.psp
  tables=$(
    "$psp" layers beginning.psp 2> said
    echo "status of layers $?"
    "$psp" alphas beginning.psp 2> said
    echo "status of alphas $?"
  )
  # Each output once, with the first length that has it.
  [ "$tables" = "$before" ] || printf 'of %s bytes:\n%s\n' "$length" "$tables" >> gave/beginnings
  facts=$("$psp" facts beginning.psp 2> said)
  [ "$facts" = "$facts_before" ] || sections "facts of a beginning of $length bytes"
  before=$tables facts_before=$facts length=$((length + 1))
done
if diff -u "$root/host/tests/golden/beginnings" gave/beginnings; then good; else bad "beginnings"; fi
