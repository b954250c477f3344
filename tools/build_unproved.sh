#!/usr/bin/env bash
# Builds an optimised executable of a program without any proof, in a minute or two:
#     tools/build_unproved.sh CRATE OUT
# It is for trying and measuring, and never what this project promises. `rt try` compiles a program without proofs; here
# it does so in a copy of the kit, made of links, whose compiler hands over the module that it is given and then stops
# the try. That module is compiled and linked as the kit does it with proved ones. OUT appears whole, at the end.
set -eu
cd "$(dirname "$(readlink -f "${BASH_SOURCE[0]}")")/.."
if [ $# != 2 ]; then
    echo "usage: tools/build_unproved.sh CRATE OUT, tools/build_hinted.sh CRATE OUT" >&2
    exit 2
fi
crate=$1 out=$(realpath -m -- "$2")
fail() {
    echo "build_unproved.sh: $*" >&2
    exit 1
}
[ -e "crates/$crate/src/main.rt" ] || fail "no program crates/$crate"
command -v rt >/dev/null || fail "no 'rt' on the path"
kit=$(dirname "$(rt doc)")
work=$(mktemp -d)
trap 'rm -rf "$work" "$out.part"' EXIT
trap 'exit 143' TERM HUP
trap 'exit 130' INT

# Links to all that the folder $1 has, in the folder $2, but for the names behind.
link_all() {
    local from=$1 to=$2 file name
    mkdir -p "$to"
    for file in "$from"/*; do
        name=$(basename "$file")
        [[ " ${*:3} " == *" $name "* ]] || ln -s "$file" "$to/$name"
    done
}
link_all "$kit" "$work/kit" bin toolchain
link_all "$kit/bin" "$work/kit/bin" rt rtlib.py rattle
link_all "$kit/toolchain" "$work/kit/toolchain" bin
link_all "$kit/toolchain/bin" "$work/kit/toolchain/bin" clang
cp "$kit/bin/rt" "$kit/bin/rtlib.py" "$work/kit/bin/" # they find the kit by where they lie

# A small module comes first, by which the kit tries the compiler; it is compiled as asked.
cat >"$work/kit/toolchain/bin/clang" <<TEXT
#!/bin/sh
for word in "\$@"; do
    case \$word in
    *module.bc)
        if [ "\$(stat -c %s "\$word")" -gt 65536 ]; then
            cp "\$word" "$work/module.part" && mv "$work/module.part" "$work/module.bc"
            exit 1
        fi
        ;;
    esac
done
exec "$kit/toolchain/bin/clang" "\$@"
TEXT
# What `rt try` asks the prover beside the compiler is only for hints.
cat >"$work/kit/bin/rattle" <<TEXT
#!/bin/sh
[ "\$1" != check ] || exit 0
exec "$kit/bin/rattle" "\$@"
TEXT
chmod +x "$work/kit/toolchain/bin/clang" "$work/kit/bin/rattle"

(cd "crates/$crate" && exec "$work/kit/bin/rt" try --seconds 1 </dev/null) >"$work/said" 2>&1 || true
if [ ! -e "$work/module.bc" ]; then
    tail -n 20 "$work/said" >&2
    fail "no module of $crate was compiled"
fi
mkdir -p "$(dirname "$out")"
clang=$kit/toolchain/bin/clang module=$work/module.bc flags=(-O3 -march=x86-64-v2)
if [ "${HINTED:-}" = 1 ]; then
    "$clang" -S -emit-llvm -O1 -Xclang -disable-llvm-passes -x ir "$module" -o "$work/module.ll"
    module=$work/hinted.ll
    tools/inline_hints.py "$work/module.ll" "$module" >&2
    # as the kit compiles what is proved
    flags=(-O3 -march=x86-64 -fPIE -ffunction-sections -fdata-sections -Xclang -fmerge-functions)
    for flag in mergefunc-use-aliases no-trap-after-noreturn trap-unreachable no-x86-call-frame-opt disable-machine-licm \
        disable-postra-machine-licm sink-common-insts=false; do
        flags+=(-mllvm "-$flag")
    done
fi
"$clang" "${flags[@]}" -c -x ir "$module" -o "$work/module.o"
"$kit/bin/rattle-link" --target x86_64-unknown-linux-gnu --toolchain "$kit/toolchain" -o "$out.part" \
    "$work/module.o" "$kit/c/libos_c.a" "$kit/c/liblibc_c.a" >"$work/said" 2>&1 || {
    cat "$work/said" >&2
    fail "$crate was not linked"
}
mv "$out.part" "$out"
