# Rows in either form, through the command: what it shows of a file with padded rows and of its twin is the same; sourced by host/check.
# shellcheck shell=sh disable=SC2154 # variables of host/check

# twins STEM CHANNELS: every table and every plane of STEM-padded.psp and STEM-unpadded.psp, which have so many channels.
twins() {
  for words in 'layers' 'layers --border' 'layers --csv' 'layers --json' 'alphas' 'alphas --border' 'alphas --csv' 'alphas --json' 'facts' \
    'palette'; do
    # shellcheck disable=SC2086 # words
    "$psp" $words "$1-padded.psp" > expected 2>&1
    # shellcheck disable=SC2086
    "$psp" $words "$1-unpadded.psp" > printed 2>&1
    same "rows, $1: $words" "$(cat expected)" "$(cat printed)"
  done
  "$psp" layers "$1-padded.psp" --csv > own.csv
  "$psp" compare "$1-unpadded.psp" own.csv > printed 2>&1
  same "rows, $1: compare" 0 $?
  # Layer, bitmap and channel of each; in a selection and in an alpha channel by the words for them.
  "$psp" list "$1-unpadded.psp" | awk '$2 == "channel" { print $7 == 3 ? "selection" : $7 == 4 ? "alpha " $6 : $6 " " $7 " " $8 }' \
    > channels
  same "rows, $1: channels" "$2" "$(wc -l < channels | tr -d ' ')"
  while read -r which; do
    rm -f padded.pgm unpadded.pgm
    # shellcheck disable=SC2086
    "$psp" plane "$1-padded.psp" $which -o padded.pgm && "$psp" plane "$1-unpadded.psp" $which -o unpadded.pgm
    cmp -s padded.pgm unpadded.pgm
    same "rows, $1: plane $which" 0 $?
  done < channels
}
twins rows1 5
twins rows4 5
twins rows8 5
twins rows24 7
twins mug 42
