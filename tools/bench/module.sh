#!/bin/sh
# module.sh keep WORK
# module.sh link WORK MODULE NAME
#
# Tries by hand, with no proof, how fast a change of the compiled code is. WORK is the folder where
# run.sh built, in a clone where the gate has passed. `keep` builds its library once more, which
# proves the benchmark again, and keeps the compiler's input, as text, in WORK/module.ll. `link`
# compiles a changed copy MODULE of it, and links the driver WORK/driver-NAME, in half a minute.
set -eu
here=$(CDPATH= cd -- "$(dirname -- "$0")" && pwd)
top=$(CDPATH= cd -- "$here/../.." && pwd)
work=$(CDPATH= cd -- "$2" && pwd)
kit=${KIT:-$(dirname -- "$(rt doc)")}
clang=$kit/toolchain/bin/clang

# A toolchain whose compiler first saves the module.
make_toolchain() {
    mkdir -p "$work/toolchain/bin"
    ln -sfn "$kit/toolchain/lib" "$work/toolchain/lib"
    for program in "$kit"/toolchain/bin/*; do
        ln -sfn "$program" "$work/toolchain/bin/$(basename "$program")"
    done
    rm "$work/toolchain/bin/clang"
    {
        echo '#!/bin/sh'
        echo "for word in \"\$@\"; do case \$word in *.bc) cp \"\$word\" '$work/module.bc' ;; esac; done"
        echo "printf '%s\\n' \"\$@\" | grep -v '\\.bc\$' > '$work/module.flags'"
        echo "exec '$clang' \"\$@\""
    } > "$work/toolchain/bin/clang"
    chmod +x "$work/toolchain/bin/clang"
}

keep() {
    make_toolchain
    RT_ALLOW_C=bench_c TOOLCHAIN=$work/toolchain python3 "$top/tools/gate/build_over.py" "$kit" "$work/rattle" bench_c
    "$clang" --target=x86_64-unknown-linux-gnu -S -emit-llvm -x ir "$work/module.bc" -o "$work/module.ll" -O0 \
        -Xclang -disable-llvm-passes
}

# link MODULE NAME: uses the kit's flags, but for the files.
link() {
    flags=$(grep -v -x -e -o -e '.*\.o' "$work/module.flags")
    # shellcheck disable=SC2086
    "$clang" $flags "$1" -o "$work/module-$2.o"
    rm -f "$work/libmodule-$2.a"
    "$kit/toolchain/bin/llvm-ar" rcs "$work/libmodule-$2.a" "$work/module-$2.o"
    (cd "$work/driver" && touch src/main.rs &&
        RUSTFLAGS="-C target-cpu=x86-64-v2" cargo rustc --quiet --offline --release -- \
            -C link-arg="$work/libmodule-$2.a" -C link-arg="$kit/c/liblibc_c.a")
    cp "$work/driver/target/release/driver" "$work/driver-$2"
}

case $1 in
    keep) keep ;;
    link) link "$3" "$4" ;;
    *) echo "module.sh: the head of this file says how it is called" >&2; exit 2 ;;
esac
