# Large sheets: how often a file is in memory, what is said where memory is missing, and progress on a terminal; sourced by host/check.
# shellcheck shell=sh disable=SC2154 # variables of host/check

# within KIBIBYTES WORDS: runs the command in so much memory, with what it prints and says in files.
within() (
  # shellcheck disable=SC3045 # a limit that the shells of Linux have
  ulimit -v "$1"
  shift
  exec "$psp" "$@" > printed 2> said
)

# Under the emulator the memory would be its own.
if [ -z "$emulator" ]; then
  # The largest input takes 1,048,576 KiB, so it is in memory once, also while follow reads it again.
  within 1200000 list large.psp
  same "the largest file once in memory, list: status" 0 $?
  within 1200000 steps large.psp
  same "the largest file once in memory, steps: status" 0 $?
  within 1200000 follow large.psp --idle 0
  same "the largest file once in memory, follow: status" 0 $?
  within 1200000 save large.psp -o -
  same "the largest file once in memory, save: status" 0 $?
  # A canvas of 878,906 KiB, and behind it its header.
  within 1100000 plane sheet.psp alpha 0 -o /dev/null
  same "the largest canvas once in memory: status" 0 $?
  within 800000 list large.psp
  same "a file without memory: status" 2 $?
  same "a file without memory" 'psp: cannot read "large.psp": no memory for 1,073,741,825 bytes' "$(cat said)"
  within 800000 follow large.psp
  same "a file without memory, follow: status" 2 $?
  # shellcheck disable=SC2002 # a pipe, whose length nobody knows
  cat large.psp | within 800000 list -
  same "a pipe without memory: status" 2 $?
  same "a pipe without memory" 1 "$(grep -c '^psp: cannot read "-": no memory for [0-9,]* bytes$' said)"
  within 800000 plane sheet.psp 0 0 0 -o refused.pgm
  same "a canvas without memory: status" 2 $?
  same "a canvas without memory" \
    "psp: the plane takes 30,000 bytes of memory, and the canvas of 30,000 by 30,000 pixels 900,000,000 more
psp: no memory for 900,000,000 bytes" "$(cat said)"
fi

# slowly FILE: its bytes with a pause among them that is long enough to be told of.
slowly() { head -c 100 "$1" && sleep 1.6 && tail -c +101 "$1"; }
slowly mug.psp | "$psp" list - > printed 2> said
same "progress, not on a terminal: status" 0 $?
same "progress, not on a terminal" "" "$(cat said)"

# On a terminal, which script makes.
if command -v script > /dev/null; then
  escape=$(printf '\033')
  # shows WORDS: runs a line of the shell on a terminal, with what it shows there in a file.
  shows() { script -qec "$1" /dev/null < /dev/null > printed; }
  shows "'$psp' list mug.psp > listed"
  same "progress of a small file" "" "$(cat printed)"
  "$psp" list mug.psp > expected
  slow='{ head -c 100 mug.psp && sleep 1.6 && tail -c +101 mug.psp; }'
  shows "$slow | '$psp' list - > listed"
  same "progress of a slow file: status" 0 $?
  same "progress of a slow file: the listing" "$(cat expected)" "$(cat listed)"
  same "progress of a slow file: the line" 'reading "-": 0 MiB ...' "$(tr '\r' '\n' < printed | sed -n "2s/$escape\[K\$//p")"
  same "progress of a slow file: cleared at the end" ' 0d 1b 5b 4b' "$(tail -c 4 printed | od -An -tx1)"
  # What is said or printed behind it begins on a line of its own.
  shows "{ $slow | head -c 517; } | '$psp' list - > listed"
  same "progress of a slow refused file" "psp: refused: 2 at 330, it ends too soon: 517 bytes are there, and what begins here is not whole" \
    "$(sed "s/.*$escape\[K//; s/;.*//" printed)"
  shows "$slow | '$psp' list -"
  same "progress before a listing on the terminal" "$(cat expected)" "$(tr -d '\r' < printed | sed "s/.*$escape\[K//")"
else
  echo "host/check: script is missing, so progress is not tried on a terminal" >&2
fi
