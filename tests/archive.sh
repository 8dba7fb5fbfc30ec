# Sourced by whatever links the C face: its archive, made where there is none of these very sources, and the flags for the C beside it.
flags="-std=c11 -Wall -Wextra -Werror -pedantic -O2"
# where `rt lib` leaves it, and `rt ci` clears it away
station=crates/station/out/libstation.a

# One line for the toolchain and the content of every source.
sources() {
    { rt version; find crates crates.txt -name out -prune -o -type f -print0 | sort -z | xargs -0 sha256sum; } | sha256sum
}

# made FILE COMMAND..: FILE is of these very sources, or COMMAND makes it. One that could not be made leaves none behind to be used instead.
made() (
    flock 9
    file=$1
    shift
    of=$(sources)
    if [ -f "$file" ] && [ "$(cat "$file.of" 2>/dev/null)" = "$of" ]; then return 0; fi
    rm -f "$file" "$file.of"
    "$@" && echo "$of" >"$file.of"
) 9<tests

staticlib() {
    (cd crates/station && rt lib)
}

archive() {
    made "$station" staticlib
}
