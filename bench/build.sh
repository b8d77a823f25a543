# Source this after tests/x86.sh: compiling several C files with the stand-in headers of tests/c and of the benchmark.

# compile_x86 OUT.o FILE.c [OPTION..]
compile_x86() {
    local out=$1 source=$2
    shift 2
    "$toolchain/bin/clang" --target=x86_64-unknown-linux-gnu -std=c11 -Wall -Wextra -Werror -O2 -fPIE -nostdinc \
        -isystem bench/headers -isystem tests/c/headers -Iinclude -Ibench/plain -Itarget/c "$@" -c "$source" -o "$out"
}

# link_objects_x86 OUT OBJECT_OR_ARCHIVE..
link_objects_x86() {
    local out=$1 lib=$toolchain/lib
    shift
    "$toolchain/bin/ld.lld" -pie -m elf_x86_64 --dynamic-linker /lib64/ld-linux-x86-64.so.2 -o "$out" \
        "$lib/Scrt1.o" "$lib/crti.o" "$lib/crtbeginS.o" "$@" "$lib/libc.so.6" "$lib/libc_nonshared.a" \
        "$lib/libgcc.a" "$lib/crtendS.o" "$lib/crtn.o"
}

# plain_objects: compiles the plain C; the objects' names are then in the array plain_c
plain_objects() {
    local name
    python3 bench/plain/crc_tables.py >target/c/crc_tables.h || return
    plain_c=()
    for name in section receiver tuner label stream lineup labels; do
        compile_x86 "target/c/plain_$name.o" "bench/plain/$name.c" || return
        plain_c+=("target/c/plain_$name.o")
    done
}
