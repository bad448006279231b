# The end of psp steps for every answer, at every kind of place; sourced by host/check.
# shellcheck shell=sh disable=SC2154 # variables of host/check

# walks NAME: what psp steps printed in walked has the entries of the listing in listed, in their order, and its answer.
walks() {
  same "$1: entries of steps" "$(awk 'NR > 1 { print $1, $4 }' listed)" "$(sed -n 's/^\([0-9]*\): entry \([0-9]*\), .*/\2 \1/p' walked)"
  same "$1: answer of steps" "$(head -n 1 listed)" "$(tail -n 1 walked)"
}

# ends NAME: adds the last place of a walk, which must be the listing's, to gave/steps-ends.
ends() {
  "$psp" steps "$1.psp" > walked 2> said
  status=$?
  "$psp" list "$1.psp" > listed 2> said-list
  same "steps of $1: status" $? $status
  same "steps of $1: said" "$(cat said-list)" "$(cat said)"
  walks "steps of $1"
  { echo "$1: status $status" && awk '/^[0-9]+: / { end = "" } { end = end $0 "\n" } END { printf "%s", end }' walked; } >> gave/steps-ends
}

# beginning NAME FROM LENGTH: a file that ends too soon.
beginning() { head -c "$3" "$2.psp" > "$1.psp"; }

# 2: in the file header, a header, a chunk, entries and data; before a header in a parent; at the main level without a bank,
# and behind the bank without a palette.
beginning in-file-header grey521 20
beginning in-header grey521 90
beginning in-chunk grey521 130
beginning in-alpha-chunk alphas 720
beginning in-entries palette 130
beginning in-data skips 105
beginning in-bank grey521 102
beginning no-bank grey521 88
beginning no-palette bits1 531
# 5 in a layer. 6: the image's total, a layer past its bank, a rest of five bytes, a channel and a palette by what they store, and a skipped
# block past its selection.
damaged mark-in-layer grey521 491 'x'
damaged image-total grey521 46 '\047'
damaged past-bank grey521 112 '\226'
damaged rest grey521 98 '\250'
damaged channel-total grey521 505 '\005'
damaged palette-total palette 117 '\025'
damaged skip-past alphas 641 '\377'
# 7: a layer at the main level, a channel in the bank, a layer in a layer, a thumbnail behind the bank, a second image and a second palette.
damaged main-layer grey521 92 '\004'
damaged bank-channel grey521 106 '\005'
damaged layer-layer grey521 495 '\004'
damaged late-thumbnail skips 1306 '\011'
damaged second-image skips 92 '\000'
damaged second-palette skips 118 '\002'
# 9: a channel more than its layer announces. 10: a layer that announces one more, and one without its colour channel.
damaged surplus-channel greys 509 '\002\000\002'
damaged lacks-channel grey521 487 '\002\000\002'
damaged lacks-colour grey521 513 '\001'

for name in greys bits1 early layers11 mug large \
  empty in-file-header in-header in-chunk in-alpha-chunk in-entries in-data cut cut-alpha in-bank no-bank no-palette \
  signature version mark mark-in-layer \
  length image-total past-bank rest channel-total palette-total skip-past sel-initial \
  place main-layer bank-channel layer-layer late-thumbnail second-image second-palette two-banks two-selections in-alpha-bank \
  field-width field-metric-nan field-colors field-lz77 field-palette field-away field-channels-8 field-bitmap field-channel field-length \
  field-sel-border field-sel-bitmap field-alp-saved field-alp-length rows1-wrong \
  expected field-twice surplus-channel layer-bitmap-3 sel-expected alpha-expected alpha-bitmap-3 \
  missing lacks-channel lacks-colour sel-missing alpha-missing lz77; do
  ends $name
done
if diff -u "$root/host/tests/golden/steps-ends" gave/steps-ends; then good; else bad "steps-ends"; fi
