# Files with odd names, a folder of files beside tables, and each sample's own table compared with it; sourced by host/check.
# shellcheck shell=sh disable=SC2154 # variables of host/check

damaged accents grey521 116 'Caf\351 \200'
# Separators, quotes, line ends, a byte without a character, and blanks at the end.
damaged odd grey521 116 ', ; \011 "x"\015\012\012\\ \033[2J\201\240 \351 '

mkdir -p all none
for name in agreed odd table twice field; do cp mug.psp "all/$name.psp"; done
cp true.csv all/agreed.csv
cp utf16.csv all/odd.CSV
cp utf16-no-mark.csv all/table.csv
cp true.csv all/twice.csv
cp true.csv all/twice.CSV
cp letter-o.csv all/field.csv
cp accents.psp all/accents.PSP
cp accents-utf8.csv all/accents.csv
cp cut.psp all/refused.psp
cp true.csv all/refused.csv
cp field-saved.psp all/wrong.psp
cp true.csv all/wrong.csv
cp mug.psp 'all/no "table" .psp'
cp true.csv all/stray.csv
mkdir all/folder.psp
cp true.csv all/folder.csv
: > all/notes.txt
mkdir -p good bad
cp mug.psp true.csv good && mv good/true.csv good/mug.csv
cp good/mug.psp bad && cp mug.csv bad

# What layers --csv prints is what compare reads.
for file in *.psp; do
  if "$psp" layers "$file" --csv > own.csv 2> said; then
    "$psp" compare "$file" own.csv > printed 2>&1
    same "compare: the own table of $file" 0 $?
  fi
done
