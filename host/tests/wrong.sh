# Files with a field that is not permitted, one for each field that a listing judges, in the current folder; sourced by host/check.
# shellcheck shell=sh disable=SC2154 # variables of host/check

# wrong NAME FROM CHUNK OFFSET BYTES..: field-NAME.psp, a copy of FROM with bytes at offsets of the chunk that begins at a place.
wrong() {
  file=field-$1.psp chunk=$3
  cp "$2.psp" "$file"
  shift 3
  while [ $# -gt 0 ]; do
    put "$file" $((chunk + $1)) "$2"
    shift 2
  done
}

# The image: each field, and where a rule is between two of them also a pair that only does not agree.
wrong width mug 50 0 '\061\165'
wrong height mug 50 4 '\377\377\377\377'
wrong metric mug 50 16 '\003'
wrong metric-0 grey521 50 16 '\001'
wrong metric-nan mug 50 8 '\000\000\000\000\000\000\370\177'
wrong compression mug 50 17 '\003'
wrong depth mug 50 19 '\020'
wrong planes mug 50 21 '\003'
wrong colors grey521 50 23 '\001'
wrong colors-24 mug 50 23 '\001'
wrong grey grey521 50 27 '\002'
wrong grey-24 mug 50 27 '\001'
wrong layers mug 50 36 '\101'
wrong paletted palette 50 36 '\002'
# Of several the earliest; and all of them before the compression that is not read.
wrong several mug 50 4 '\000' 19 '\020' 36 '\000'
wrong lz77 lz77 50 36 '\000'

# The palette, before the bank and behind it.
wrong palette palette 121 0 '\000'
wrong palette-end bits1 545 0 '\003'

# The layer: a border is told before its saved rectangle, and bitmaps before channels.
wrong type mug 330 256 '\002'
wrong border mug 330 257 '\377\177\377\377'
wrong corners mug 330 265 '\377\377\377\377'
wrong saved mug 2810 281 '\105\165'
wrong away mug 2810 257 '\050'
wrong mask-border mug 5890 298 '\000\200'
wrong mask mug 5890 310 '\377\377\377\377'
wrong outside grey521 116 318 '\001\000\000\000\001'
wrong blend mug 330 329 '\006'
wrong bitmaps mug 330 371 '\000' 373 '\377\377'
wrong channels mug 330 373 '\004'
wrong channels-8 greys 138 373 '\001'

# The channel: both types are told before the plane length, and between them that it is not expected.
wrong bitmap mug 719 4 '\001' 8 '\006' 10 '\004'
wrong channel mug 719 4 '\001' 10 '\004'
wrong length mug 719 4 '\001'
wrong twice mug 843 4 '\001' 10 '\001'

# The selection and the alpha channels: a border is told before its saved rectangle, and bitmaps before channels.
wrong sel-border alphas 595 0 '\007' 24 '\007'
wrong sel-saved alphas 595 24 '\007'
wrong sel-bitmaps alphas 595 32 '\002\000\002'
wrong sel-count alphas 595 34 '\000'
wrong alp-border alphas 709 256 '\007\000\000\000'
wrong alp-saved alphas 709 280 '\007'
wrong alp-bitmaps alphas 709 288 '\000'
wrong alp-count early 458 290 '\003'
# Their channels, which have 8 bits at any depth; one has no pixels.
wrong sel-bitmap alphas 661 8 '\006'
wrong sel-channel alphas 661 10 '\004'
wrong sel-length alphas 661 4 '\007'
wrong alp-bitmap alphas 1015 8 '\006'
wrong alp-channel early 424 10 '\004'
wrong alp-length alphas 1015 4 '\014'
wrong alp-empty early 764 4 '\001'

# Another layer than the first, another channel than the first, and a channel with skipped blocks before it.
wrong layer-1 mug 1091 256 '\377'
wrong channel-1 mug 843 4 '\001'
wrong skipped skips 1254 8 '\000\001'
# Names that would move a terminal's cursor, and one of 256 bytes.
wrong named named 116 256 '\002'
wrong long grey521 116 0 "$(head -c 256 /dev/zero | tr '\000' x)" 256 '\002'

# A wrong field with more than 512 zeros behind its chunk, which are not waited for: filling them would not change the answer.
wrong zeros grey521 116 373 '\002'
put field-zeros.psp 521 '~BK\000\014\000\000\000\000\000\000\004\000\000'
sized field-zeros 1559
