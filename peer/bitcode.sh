# What build-library and build-module share; sourced, where `me` is the script's name.
root=$(dirname "$(dirname "$(readlink -f "$0")")")
crate=$root/crates/lepsaino_c_c
bitcode=$root/target/bitcode/library.bc

stop() {
    printf '%s: %s\n' "$me" "$*" >&2
    exit 1
}

command -v rt >/dev/null || stop "rt, the Rattle toolchain, is not among the commands"
rattle=$(readlink -f "$(command -v rt)")
kit=$(dirname "$(dirname "$rattle")")
tools=$kit/toolchain
clang=("$tools/bin/clang" --no-default-config -Werror)
room=$(mktemp -d)
trap 'rm -rf "$room"' EXIT

link_all_but() { # NAME FROM INTO
    local path
    mkdir -p "$3"
    for path in "$2"/*; do
        [ "${path##*/}" = "$1" ] || ln -s "$path" "$3/"
    done
}

# A kit of links to the kit, with a clang of its own that keeps the bitcode it is given. rt takes its kit from where its own files lie.
make_kit() {
    local lent=$room/kit/toolchain
    link_all_but bin "$kit" "$room/kit"
    rm "$lent"
    link_all_but bin "$tools" "$lent"
    link_all_but clang "$tools/bin" "$lent/bin"
    link_all_but rt "$kit/bin" "$room/kit/bin"
    rm "$room/kit/bin/rtlib.py"
    cp "$rattle" "$kit/bin/rtlib.py" "$room/kit/bin"
    cat >"$lent/bin/clang" <<END
#!/bin/sh
for word; do
    case \$word in *.bc) cp "\$word" "$room/library.bc" ;; esac
done
exec "$tools/bin/clang" "\$@"
END
    chmod +x "$lent/bin/clang"
}

# Proves the library where it has changed, and makes its archive.
prove() { # RT FLAG ..
    mkdir -p "$root/target"
    (cd "$crate" && "$1" lib "${@:2}") >"$root/target/$me.log" 2>&1 || {
        cat "$root/target/$me.log" >&2
        stop "the library could not be built"
    }
}

# Makes the archive for x86-64 too, and keeps the bitcode that it is compiled from.
build() {
    touch "$room/started"
    prove "$rattle"
    make_kit
    prove "$room/kit/bin/rt"
    [ -s "$room/library.bc" ] || stop "the compiler was given no bitcode"
    # Sources that changed meanwhile are newer than the bitcode.
    touch -r "$room/started" "$room/library.bc"
    mkdir -p "$(dirname "$bitcode")"
    mv "$room/library.bc" "$bitcode"
}

# Where the bitcode is kept and no source is newer, it is what a build would make; out/ is what rt makes of sources.
build_where_changed() {
    [ -f "$bitcode" ] && [ -z "$(find "$root/crates.txt" "$root"/crates/*/* "$rattle" -name out -prune -o -newer "$bitcode" -print -quit)" ] || build
}

# The bitcode as text: what the compiler was given, with nothing made faster yet.
write_text() { # FILE
    "${clang[@]}" --target=x86_64-unknown-linux-gnu -S -emit-llvm -Xclang -disable-llvm-passes -x ir "$bitcode" -o "$1"
}

# The two lines that tell a target's name and its layout of data.
target_lines() { # TARGET
    "${clang[@]}" "--target=$1" -S -emit-llvm -x c /dev/null -o - | grep '^target '
}

# Switches with which code that cannot be reached stops, should it be reached all the same.
stopping=(-mllvm -trap-unreachable -mllvm -no-trap-after-noreturn)
