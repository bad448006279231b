# Saved tables: made here by hand from the independent listing, for the cases and beside what psp save writes; and each sample's own, read
# in place of it. Sourced by host/check.
# shellcheck shell=sh disable=SC2154 # variables of host/check

# written: the saved table of a listing's lines, which it reads; a width or height over 4,096 makes it one of version 2.
written() {
  awk '
    function big(n) { return sprintf("\\%03o\\%03o\\%03o\\%03o", int(n / 16777216), int(n / 65536) % 256, int(n / 256) % 256, n % 256) }
    BEGIN {
      split("image - palette bank layer channel selection alphabank alpha", kinds, " ")
      for (k in kinds) ids[kinds[k]] = k - 1
      version = 1
    }
    NR == 1 { count = $6 }
    NR > 1 {
      # Layer number, bitmap, channel, start, stored, width, height, plane, row.
      split("0 0 0 0 0 0 0 0 0", own, " ")
      if ($2 == "channel") for (k = 1; k <= 9; k++) own[k] = $(5 + k)
      if ($2 == "layer" || $2 == "alpha") own[1] = $6
      if ($2 == "palette" || $2 == "skip") { own[4] = $6; own[5] = $7 }
      line = big($2 == "skip" ? $8 : ids[$2]) big($2 == "skip") big($3) big($4) big($5)
      for (k = 1; k <= 9; k++) line = line big(own[k])
      if (own[6] + 0 > 4096 || own[7] + 0 > 4096) version = 2
      lines[NR] = line
    }
    END {
      printf "%s\\%03o%s\n", big(5 + 56 * count), version, big(count)
      for (k = 2; k <= NR; k++) print lines[k]
    }' | while read -r line; do
    # shellcheck disable=SC2059 # the bytes are the format
    printf "$line"
  done
}

for name in mug alphas grey521 sheet; do
  "$reference" list < $name.psp | written > $name.table
done
echo 'answer 0 place - entries 0' | written > empty.table
# What no listing makes: a channel in nothing, layers without channels or with channels of two sizes, numbers out of all bounds.
written > odd.table << 'END'
answer 0 place - entries 12
0 channel 2 0 0 0 0 0 0 0 9 9 81 9
1 layer 1 0 0 7
2 layer 1 0 0 7
3 channel 2 0 0 3 0 1 0 0 8 4 32 8
4 channel 2 0 0 3 0 2 0 0 8 5 40 8
5 channel 2 0 0 3 2 0 0 0 1 1 1 1
6 layer 4294967295 4294967295 4294967295 4294967295
7 channel 2 0 0 0 0 0 4294967295 4294967295 4294967295 4294967295 4294967295 4294967295
8 channel 2 0 0 0 9 9 0 0 2 2 4 2
9 selection 0 0 0
10 alpha 1 0 0 4294967295
11 channel 2 0 0 0 4 0 0 0 3 2 6 3
END

# A file for each refusal: cut off, with a byte more, under nine bytes, of another version, with another count, with a part of an entry, and
# of a version that its sides have not: of 2 without a large one, also where it has no entries, and of 1 with one.
head -c 3000 mug.table > cut.table
{ cat mug.table && printf x; } > long.table
head -c 8 mug.table > short.table
for name in version count; do cp mug.table $name.table; done
put version.table 4 '\003'
put count.table 8 '\065'
{ cat grey521.table && printf 'part'; } > part.table
put part.table 0 '\000\000\000\351'
for name in mug empty sheet; do cp $name.table $name-sides.table; done
put mug-sides.table 4 '\002'
put empty-sides.table 4 '\002'
put sheet-sides.table 4 '\001'

# One longer than any artwork, whose entries are zeros and take no room on the disk; then with one large side, of another version, and cut
# off. Through a pipe it is known as well.
printf '\100\000\000\065\001\001\044\222\112' > large.table
dd if=/dev/null of=large.table bs=1 seek=1073741881 2> /dev/null
"$psp" layers large.table > printed 2> said
same "a saved table longer than artwork: status" 0 $?
same "a saved table longer than artwork: columns" 2 "$(wc -l < printed | tr -d ' ')"
# refuses_large NUMBER WORDS: what it is refused for.
refuses_large() {
  "$psp" layers large.table > printed 2> said
  same "a long saved table, $1: status" 1 $?
  same "a long saved table, $1: sentence" 1 "$(grep -c "^psp: refused: $1, taken for a saved table: $2;" said)"
}
put large.table 1073741869 '\000\000\165\060'
refuses_large 74 "by its version, 1, no side is over 4,096, and entry 19173961 has a height of 30,000"
put large.table 4 '\002'
# shellcheck disable=SC2002 # a pipe
cat large.table | "$psp" layers - > printed 2> said
same "a saved table longer than artwork, by a pipe: status" 0 $?
put large.table 4 '\003'
refuses_large 71 "its version is 3, and 1 and 2 are read"
put large.table 4 '\002'
dd if=/dev/null of=large.table bs=1 seek=1073741880 2> /dev/null
refuses_large 70 "by its length it has 1073741881 bytes, and 1073741880 are there"
rm large.table

# Artwork is none: as long as it may be and one byte longer, and as long as its first four bytes would say. No more of it is read.
for length in 1073741825 1348561266; do
  cp grey521.psp long-artwork.psp
  sized long-artwork $length
  "$psp" list long-artwork.psp > printed 2> said
  same "artwork of $length bytes: status" 1 $?
  same "artwork of $length bytes" "answer 1 place 0 entries 0" "$(cat printed)"
done
rm long-artwork.psp

# A saved table in a folder of artwork is not compared.
cp mug.table all/saved.psp
cp true.csv all/saved.csv

# The layers of artwork: number, width, height, masks.
layers_of() {
  "$psp" layers "$1" --json > layers.json
  sed -n 's/^{"order":\([0-9]*\),.*,"width":\([0-9]*\),"height":\([0-9]*\),"border":.*"masks":\[\(.*\)\]},*$/\1 \2 \3 \4/p' layers.json |
    sed 's/"//g; s/,/, /; s/ $/ none/'
}
# Its selection and alpha channels: kind, rank, width, height.
alphas_of() {
  "$psp" alphas "$1" --json > alphas.json
  sed -n 's/^{"kind":"\([a-z]*\)","rank":\([a-z0-9]*\),.*,"width":\([0-9]*\),"height":\([0-9]*\),"border".*$/\1 \2 \3 \4/p' alphas.json |
    sed 's/null/-/'
}
# What is shown of them where the table is saved.
layers_saved() { "$psp" layers own.table | awk 'NR > 2 { print $1, $5, $6, $8 (NF > 8 ? " " $9 : "") }'; }
alphas_saved() { "$psp" alphas own.table | awk 'NR > 2 { print $1, $2, $6, $7 }'; }
closing='no difference in order, width and height: .*; name, left and top were not compared: a saved table does not hold them'

# What is saved of each accepted sample is what was made by hand, and what is read of it is what the sample has.
for file in *.psp; do
  rm -f own.table
  "$psp" save "$file" -o own.table 2> said
  status=$?
  "$psp" list "$file" > listed 2> /dev/null
  same "save $file: status" $? $status
  if [ $status -ne 0 ]; then
    [ ! -e own.table ]
    same "save $file: nothing is written" 0 $?
    continue
  fi
  # The independent listing takes at most 65,536 bytes.
  if [ "$(wc -c < "$file")" -gt 65536 ]; then cp listed lines; else "$reference" list < "$file" > lines; fi
  written < lines | cmp -s - own.table
  same "save $file: the table made by hand" 0 $?
  "$psp" save "$file" -o - | cmp -s - own.table
  same "save $file: again" 0 $?
  { sed -n '1s/ place [0-9]* / place - /p' listed; sed 1d listed; } > expected
  "$psp" list own.table > printed
  same "list the table of $file" "$(cat expected)" "$(cat printed)"
  same "layers of the table of $file" "$(layers_of "$file")" "$(layers_saved)"
  same "alphas of the table of $file" "$(alphas_of "$file")" "$(alphas_saved)"
  "$psp" layers "$file" --csv > own.csv
  "$psp" compare own.table own.csv > printed 2>&1
  same "compare the table of $file" 0 $?
  same "compare the table of $file: the last line" 1 "$(tail -n 1 printed | grep -c "^$closing\$")"
done

# Standard input is known for a saved table by its content too.
"$psp" list - < mug.table > printed
same "a saved table as standard input: status" 0 $?
same "a saved table as standard input" "$("$psp" list mug.table)" "$(cat printed)"
"$psp" compare - true.csv < mug.table > printed
same "a saved table as standard input: compare" 0 $?
# shellcheck disable=SC2002 # a pipe
cat mug.table | "$psp" facts - > printed 2> said
same "a saved table as standard input: facts" 1 $?
same "a saved table as standard input: facts needs more" 'psp: "-" is a saved table: facts needs the artwork' "$(cat said)"

# What stood in a table's place survives a refusal, a disk that is full and a folder that cannot be written; nothing stays beside it.
stays() {
  same "$1: status" "$2" "$3"
  same "$1: the old table" old "$(cat old.table)"
  same "$1: nothing beside it" "" "$(find . -name '.psp-*')"
}
echo old > old.table
"$psp" save cut.psp -o old.table 2> said
stays "save, a refused file" 1 $?
"$psp" save mug.table -o old.table 2> said
stays "save, a saved table" 1 $?
(
  trap '' XFSZ
  ulimit -f 4
  exec "$psp" save mug.psp -o old.table
) 2> said
stays "save, a full disk" 2 $?
"$psp" save mug.psp -o /proc/mug.table 2> said
stays "save, a folder that cannot be written" 2 $?
same "save, a folder that cannot be written: sentence" 1 "$(grep -c '^psp: cannot write: "/proc/mug.table": ' said)"
"$psp" save mug.psp -o old.table
same "save: the old table is replaced" 0 $?
cmp -s old.table mug.table
same "save: by the new one" 0 $?
cp mug.psp spared.psp
ln -f spared.psp hard.psp
"$psp" save spared.psp -o hard.psp 2> said
same "save, the input as output: status" 2 $?
cmp -s spared.psp mug.psp
same "save, the input as output: unchanged" 0 $?
rm spared.psp hard.psp
