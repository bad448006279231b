# The header and the archive, in C and in C++: their versions, and null pointers where the length is 0; sourced by host/check.
# shellcheck shell=sh disable=SC2154,SC2086 # variables of host/check; flags are words

# header LANGUAGE COMPILER...: the same program, in a language.
header() {
  language=$1
  shift
  if "$@" -O2 -Wall -Wextra -pedantic -Werror $c_flags -I "$root/include" "$root/host/tests/header.c" -x none "$root/target/staticlib/libpsp.a" \
    -o header 2> said; then
    same "the header in $language" "status 0" "$($emulator ./header grey521.psp && echo "status 0")"
  else
    bad "the header in $language: $(cat said)"
  fi
}

header C "$cc" -x c -std=c11
if command -v "$cxx" > /dev/null; then
  header C++ "$cxx" -x c++ -std=c++11
else
  echo "host/check: $cxx is missing, so the header is not tried in C++" >&2
fi
