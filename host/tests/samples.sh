# Sample files, whole and damaged, in the current folder; sourced by host/check with $root set.
# shellcheck shell=sh disable=SC2154 # variables of host/check

"$reference" selftest > /dev/null || fail "tests/reference fails its own checks"
for name in grey521 layers11 palette bits1 bits4 greys skips alphas early; do
  "$reference" file $name > $name.psp
done
"$root/target/host/twins" || fail "host/tests/twins.rs writes nothing"
cp "$root"/samples/*.psp "$root/samples/mug.csv" "$root"/host/tests/typed/*.csv .

# put FILE PLACE BYTES: writes bytes, as printf has them, over a place of a file.
put() {
  # shellcheck disable=SC2059 # the bytes are the format
  printf "$3" | dd of="$1" bs=1 seek="$2" conv=notrunc 2> /dev/null
}

# damaged NAME FROM PLACE BYTES: a copy of FROM, damaged at a place.
damaged() {
  cp "$2.psp" "$1.psp"
  put "$1.psp" "$3" "$4"
}

# sized NAME LENGTH: makes a file longer by zeros.
sized() {
  dd if=/dev/null of="$1.psp" bs=1 seek="$2" 2> /dev/null
}

# A file for each answer that a listing can have here; 12 cannot come, since the command makes its table large enough.
sized over 1073741825
head -c 520 grey521.psp > cut.psp
: > empty.psp
damaged signature grey521 0 'Q'
damaged version grey521 32 '\005'
damaged mark grey521 88 'x'
damaged length grey521 42 '\047'
damaged place grey521 40 '\001'
damaged field grey521 50 '\000'
damaged rectangle grey521 397 '\002'
damaged plane-length grey521 509 '\005'
damaged code grey521 513 '\006'
damaged expected mug 86 '\012'
damaged missing mug 86 '\014'
damaged lz77 grey521 67 '\002'

# A plane that is refused: count 128 as the first packet of the first channel.
damaged count128 mug 731 '\200'
# A name that would move a terminal's cursor, with an accent and a backslash.
damaged named grey521 116 '\033[2JCaf\351 \134'
# A control character that UTF-8 has besides those of ASCII: the one that begins a terminal's commands.
damaged steered grey521 116 '\302\23331m'
# A name with quotes in it and a blank at its end.
damaged quoted grey521 116 'Say "White" '
# A second bank behind a file that is whole without it.
cp grey521.psp two-banks.psp
printf '~BK\000\003\000\000\000\000\000\000\000\000\000' >> two-banks.psp

# A selection and alpha channels that are out of place, not expected, missing or not whole: each refusal that their rules can give.
cp alphas.psp two-selections.psp
printf '~BK\000\006\000\044\000\000\000\044\000\000\000' >> two-selections.psp
damaged in-alpha-bank alphas 699 '\005'
damaged sel-initial alphas 587 '\043'
damaged sel-expected alphas 669 '\000'
damaged sel-missing alphas 651 '\014'
damaged alpha-expected alphas 693 '\001'
damaged alpha-bitmap-3 alphas 1023 '\003'
damaged alpha-missing alphas 693 '\003'
damaged layer-bitmap-3 alphas 513 '\003'
head -c 1380 alphas.psp > cut-alpha.psp
head -c 1280 early.psp > cut-early.psp
# A packet with count 128 in an alpha channel's plane, and a name that would move a terminal's cursor.
damaged alpha-count128 early 436 '\200'
damaged alpha-named alphas 709 '\033[2JCaf\351 \134'

# The largest permitted input, nearly all of it a skipped block that takes no room on the disk.
cp grey521.psp large.psp
put large.psp 521 '~BK\000\014\000\000\000\000\000\351\375\377\077'
sized large 1073741824
# More blocks than the first table of follow has room for.
cp grey521.psp many.psp
blocks=0
while [ $blocks -lt 108 ]; do
  printf '~BK\000\014\000\000\000\000\000\001\000\000\000x' >> many.psp
  blocks=$((blocks + 1))
done
