# Sourced by the tests in C: cc compiles for the archive that `rt lib` writes, which is for x86-64, as the machine at hand must be. cxx is the compiler for
# C++, if there is one.
. tests/archive.sh

cc=${CC:-gcc}
cxx=${CXX:-g++}

# Makes the archive as a part of a test, which has sourced count.sh.
archived() {
    local status
    archive >"$work/log" 2>&1
    status=$?
    [ "$status" = 0 ] || cat "$work/log"
    told "$status" "rt lib in crates/station"
}
