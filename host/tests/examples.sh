# The example in C and in Rust say the same; sourced by host/check.
# shellcheck shell=sh disable=SC2154 # variables of host/check

# placed NAME EXPECTED WORDS: what both programs print with these words.
placed() {
  name=$1 expected=$2
  shift 2
  same "the example in C, $name" "$expected" "$($emulator "$root/target/host/placed_plane" "$@")"
  same "the example in Rust, $name" "$expected" "$($emulator "$root/target/host/placed_plane_rs" "$@")"
}
# not_placed EXPECTED WORDS: what both programs say with these words.
not_placed() {
  expected=$1
  shift
  same "the example in C, $expected" "$expected" "$($emulator "$root/target/host/placed_plane" "$@" 2>&1 > /dev/null)"
  same "the example in Rust, $expected" "$expected" "$($emulator "$root/target/host/placed_plane_rs" "$@" 2>&1 > /dev/null)"
}

placed "a transparency mask" 'layer 4: bitmap 0 channel 1
layer 4: bitmap 0 channel 2
layer 4: bitmap 0 channel 3
layer 4: bitmap 1 channel 0
plane of 56 by 36 pixels, 2016 bytes
placed at (20,14) on 96 by 64: 1500 pixels are not 0' mug.psp 4 1 0
placed "a user mask" 'layer 9: bitmap 0 channel 1
layer 9: bitmap 0 channel 2
layer 9: bitmap 0 channel 3
layer 9: bitmap 1 channel 0
layer 9: bitmap 2 channel 0
plane of 64 by 40 pixels, 2560 bytes
placed at (16,12) on 96 by 64: 1280 pixels are not 0' mug.psp 9 2 0
# The disc is narrower here, and its rows are padded or not.
for form in padded unpadded; do
  for language in '' _rs; do
    same "placed_plane$language, rows $form" 'placed at (20,14) on 96 by 64: 1494 pixels are not 0' \
      "$($emulator "$root/target/host/placed_plane$language" mug-$form.psp 4 1 0 | tail -n 1)"
  done
done
# A selection's channel and the first alpha channel's have the number 0, as the layer has.
placed "a layer beside alpha channels" 'layer 0: bitmap 0 channel 1
layer 0: bitmap 0 channel 2
layer 0: bitmap 0 channel 3
plane of 1 by 1 pixels, 4 bytes
placed at (0,0) on 6 by 4: 1 pixels are not 0' alphas.psp 0 0 2
not_placed 'the layer has no such channel' alphas.psp 0 4 0
not_placed 'no such layer' mug.psp 11 0 0
not_placed 'the layer has no such channel' grey521.psp 0 1 0
not_placed 'several pixels a byte: spread them before placing' bits1.psp 0 0 0
not_placed 'listing: refused, 2 at 517' cut.psp 0 0 0
not_placed 'listing: refused, 1 at 0' over.psp 0 0 0
not_placed 'listing: refused, 8 at 3083' field-saved.psp 0 0 1
