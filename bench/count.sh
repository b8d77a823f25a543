# Source this after tests/x86.sh: how many instructions a whole run executes, exact and the same on every run. The
# difference of two runs is the cost of what one does more than the other. On x86-64 it needs valgrind, a Debian
# package, and installs it.
if [ -z "$emulator" ] && ! command -v valgrind >/dev/null; then
    printf '%s: installing valgrind\n' "$0" >&2
    { command -v apt-get && apt-get install -y --no-install-recommends valgrind; } >/dev/null 2>&1 || {
        printf '%s: valgrind is not on the PATH, and apt-get could not install it\n' "$0" >&2
        exit 1
    }
fi

# count_x86 PROGRAM [ARGUMENT..]: standard input goes to the program, whose exit status is not looked at
count_x86() {
    local loader="$toolchain/lib/ld-linux-x86-64.so.2" count
    if [ -n "$emulator" ]; then
        count=$(env -i "$emulator" -one-insn-per-tb -d exec,nochain "$loader" --library-path "$toolchain/lib" "$@" \
            2>&1 >/dev/null | grep -c '^Trace') || true
    else
        count=$(env -i "$(command -v valgrind)" --tool=callgrind --callgrind-out-file=/dev/null "$loader" \
            --library-path "$toolchain/lib" "$@" 2>&1 >/dev/null | sed -n 's/.*Collected : //p')
    fi
    [[ $count =~ ^[1-9][0-9]*$ ]] || {
        printf '%s: the instructions of %s could not be counted\n' "$0" "$*" >&2
        exit 1
    }
    printf '%s' "$count"
}
