#!/bin/sh
# Makes libsackbutflare.so, for x86-64, beside this script or at the path given, from the archive that `rt lib` in crates/station writes.
set -eu
here=$(dirname "$(readlink -f "$0")")
${CC:-gcc} -shared -o "${1:-$here/libsackbutflare.so}" -Wl,--whole-archive "$here/../../crates/station/out/libstation.a" -Wl,--no-whole-archive
