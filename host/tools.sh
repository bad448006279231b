# What builds and runs programs for x86-64 on this machine; sourced by host/build and host/check, which define fail.
# shellcheck shell=sh disable=SC2034

case $(uname -m) in
x86_64)
  rustc=rustc rust_flags=
  cc=cc cxx=c++ c_flags=
  emulator=
  ;;
aarch64)
  # Under the emulator only static programs that are not position-independent run.
  rustc=/usr/bin/rustc
  rust_flags='--target x86_64-unknown-linux-gnu -C linker=x86_64-linux-gnu-gcc -C target-feature=+crt-static -C relocation-model=static'
  cc=x86_64-linux-gnu-gcc cxx=x86_64-linux-gnu-g++ c_flags=-static
  emulator=qemu-x86_64
  [ -d /usr/lib/rustlib/x86_64-unknown-linux-gnu ] || fail "Rust for x86-64 is missing: run host/install"
  ;;
*) fail "the library is for x86-64, and runs on Arm by an emulator" ;;
esac
for tool in $rustc $cc $emulator; do
  command -v "$tool" > /dev/null || fail "$tool is missing: run host/install"
done

rust() {
  # shellcheck disable=SC2086 # flags are words
  $rustc --edition 2021 -O $rust_flags "$@"
}
