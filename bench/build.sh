#!/usr/bin/env bash
# Builds the program and the measuring program natively, without proofs:
#
#   bash bench/build.sh FOLDER             makes FOLDER/vcc and FOLDER/measure
#   bash bench/build.sh FOLDER measure     makes the second alone
#
# `rt try` compiles a program for its tests alone, without optimising and with checks of memory. Here the module that it hands to clang is kept, compiled with -O2
# as `rt run` compiles a proved program, and linked with the same libraries. Such a program still has the checks of `rt try` in it, of indices and of sums, which a
# proved one hasn't, so it is a little slower.
set -eu
top=$(cd "$(dirname "$0")/.." && pwd)
mkdir -p "$1"
to=$(cd "$1" && pwd)
kit=/opt/rattle

# A copy of the repository, with the measuring program as one more crate.
rm -rf "$to/repo" && mkdir -p "$to/repo/crates/measure/src"
(cd "$top" && git archive HEAD crates crates.txt HANDLES) | tar x -C "$to/repo"
for file in "$top"/bench/measure/*.txt; do cp "$file" "$to/repo/crates/measure/src/$(basename "$file" .txt).rt"; done
echo "measure: vcc_base vcc_io vcc_judge refutation_check block_layout rule_linear vcc_rules cert_reader cert_format term_bank term_graph terms method program_language itoa" >> "$to/repo/crates.txt"

# The kit's toolchain, but with a clang that keeps the module that is to be built with checks of memory, and stops there.
mkdir -p "$to/kit/bin"
for part in "$kit"/toolchain/* "$kit"/toolchain/bin/*; do ln -sfn "$part" "$to/kit/${part#"$kit"/toolchain/}"; done 2>/dev/null
rm "$to/kit/bin/clang"
cat > "$to/kit/bin/clang" <<END
#!/usr/bin/env bash
for word in "\$@"; do case \$word in -fsanitize*) cp module.bc $to/module.bc; exit 1;; esac; done
exec $kit/toolchain/bin/clang "\$@"
END
chmod +x "$to/kit/bin/clang"

build() {
    rm -f "$to/module.bc"
    python3 "$top/bench/module.py" "$to/repo/crates/$1" "$to/kit" > "$to/$1.log" 2>&1 || true
    [ -f "$to/module.bc" ] || { cat "$to/$1.log"; exit 1; }
    "$kit"/toolchain/bin/clang --target=x86_64-unknown-linux-gnu --sysroot="$kit/toolchain" -march=x86-64 -ffunction-sections -fdata-sections \
        -mllvm -no-trap-after-noreturn -mllvm -trap-unreachable --no-default-config -w -c -x ir "$to/module.bc" -o "$to/$1.o" -fPIE -O2
    lib="$kit/toolchain/lib"
    "$kit"/toolchain/bin/ld.lld -m elf_x86_64 -pie -dynamic-linker /lib64/ld-linux-x86-64.so.2 --eh-frame-hdr --gc-sections -z relro -z now -z noexecstack \
        -o "$to/$1" "$lib"/Scrt1.o "$lib"/crti.o "$lib"/crtbeginS.o "$to/$1.o" "$kit"/c/libos_c.a "$kit"/c/liblibc_c.a --as-needed "$lib"/libm.so.6 \
        "$lib"/libc.so.6 "$lib"/libc_nonshared.a "$lib"/libgcc.a "$lib"/libgcc_s.so.1 "$lib"/crtendS.o "$lib"/crtn.o
}
if [ $# -eq 1 ]; then set -- "$1" vcc measure; fi
for name in "${@:2}"; do build "$name"; done
