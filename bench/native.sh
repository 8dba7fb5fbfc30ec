# Sourced by the bench, from the folder above it and with $work for what is thrown away: archives of the C face to measure.
# Untried since rt runs on x86-64 alone: whatever is for another processor, which is the kind `native`, and bench/os.c.
. tests/archive.sh

kit=$(dirname "$(dirname "$(readlink -f "$(command -v rt)")")")

# The kind of archive that the machine at hand runs.
here() {
    if [ "$(uname -m)" = x86_64 ]; then echo staticlib; else echo native; fi
}

# place KIND: where an archive of this kind is made.
place() {
    if [ "$1" = staticlib ]; then echo "$station"; else echo "target/$1/libstation.a"; fi
}

# compiled OUT COMMAND..: the object file, for the machine at hand, of what COMMAND has compiled. rattle proves a crate and hands it to the kit's clang as
# one LLVM module for x86-64. Here that is a script, in a kit of links, which keeps the module; then clang compiles it at the same level for the machine
# at hand. As C on Arm has it, a large struct is handed over by its address and a large result has its address in a register of its own: sed turns the
# exported functions so.
compiled() {
    local out=$1 bin=toolchain/bin own
    shift
    own=$(mktemp -d "$work/kit.XXXXXX")
    cp -rs "$kit/." "$own"
    # rt looks for its kit from where its own file lies
    rm "$own/bin/rt" "$own/bin/rtlib.py" "$own/$bin/clang"
    cp "$kit/bin/rt" "$kit/bin/rtlib.py" "$own/bin"
    cat >"$own/$bin/clang" <<END
#!/bin/sh
for word; do case \$word in *.bc) cp "\$word" "$own/module.bc" ;; esac; done
exec "$kit/$bin/clang" "\$@"
END
    chmod +x "$own/$bin/clang"
    PATH=$own/bin:$PATH "$@" || return
    "$kit/$bin/clang" --target=x86_64-unknown-linux-gnu -S -emit-llvm -Xclang -disable-llvm-passes -x ir "$own/module.bc" -o "$own/x86-64.ll" || return
    sed -E -e '/^target /d' -e 's/"target-cpu"="x86-64"//' -e '/^define .*@sackbutflare_/s/ byval\([^)]*\) align 8//' \
        -e '/^define noundef ptr @sackbutflare_/,/^}/{s/noundef ptr (@[a-z_]+)\(ptr /void \1(ptr sret(i8) /;s/ret ptr .*/ret void/}' \
        "$own/x86-64.ll" >"$own/here.ll"
    "$kit/$bin/clang" -Werror -Wno-override-module -ffunction-sections -fdata-sections -fPIC -O3 -c -x ir "$own/here.ll" -o "$out"
}

# Makes target/native/libstation.a.
native() {
    compiled "$work/station.o" staticlib || return
    mkdir -p target/native
    ar rc target/native/libstation.a "$work/station.o"
}

# Makes crates/play/out/play: rt run builds a program and runs it, here on nothing.
program() {
    rm -f crates/play/out/play
    (cd crates/play && rt run </dev/null)
    [ -x crates/play/out/play ]
}

# built KIND WHICH: prints the path of an archive of this kind. WHICH is one, or a git revision, which is built for minutes where its crates are not those
# of target/, and kept in target/KIND. This rt builds no revision from before the repository was brought to it.
built() {
    local tree=$work/$2 kept
    if [ -f "$2" ]; then echo "$2"; return; fi
    mkdir -p "$tree"
    git archive "$2" | tar -x -C "$tree" || return
    kept=target/$1/$(cd "$tree" && sources | cut -c 1-16).a
    if [ ! -f "$kept" ]; then
        (cd "$tree" && made "$(place "$1")" "$1") >"$work/log" 2>&1 || { cat "$work/log" >&2; return 1; }
        mkdir -p "target/$1"
        cp "$tree/$(place "$1")" "$kept"
    fi
    echo "$kept"
}
