# To be read by other scripts. The toolchain makes programs for x86-64 alone; on another machine they run under the system's emulator, qemu.
# `libraries` is where the toolchain has the C library for x86-64, and `emulated` the words to put before a program.
# shellcheck shell=bash disable=SC2034
libraries=$(dirname "$(dirname "$(readlink -f "$(command -v rt)")")")/toolchain/lib
emulator=$(command -v qemu-x86_64 || true)
loader=$libraries/ld-linux-x86-64.so.2
emulated=()
if [ "$(uname -m)" != x86_64 ]; then
    emulated=("$emulator" "$loader" --library-path "$libraries")
fi
