# Source this: compiling and running C for x86-64 with the Rattle toolchain's own clang, linker and C library, the same on
# x86-64 and on aarch64 (there under the toolchain's emulator). It needs the toolchain, and Python 3 for the tests around it.
need() {
    command -v "$1" >/dev/null || {
        printf '%s: %s\n' "$0" "$2" >&2
        exit 1
    }
}
need rt "the Rattle toolchain's command rt is not on the PATH"
need python3 "python3 is not on the PATH"
need flock "flock (Debian's util-linux) is not on the PATH"

kit=$(cd "$(dirname "$(readlink -f "$(command -v rt)")")/.." && pwd -P)
toolchain=$kit/on/$(uname -m)/toolchain
[ -d "$toolchain" ] || toolchain=$kit/toolchain
"$toolchain/bin/clang" --version >/dev/null 2>&1 || {
    printf '%s: the Rattle toolchain in %s has no tools for %s\n' "$0" "$kit" "$(uname -m)" >&2
    exit 1
}
emulator=
[ -x "$toolchain/bin/qemu-x86_64" ] && emulator=$toolchain/bin/qemu-x86_64

# arguments COMPARISON PROGRAM [ARGUMENT..]: the arguments of a comparison, before anything is built for it. Ends with its help
# where that is asked for, and with one line where an argument is wrong
arguments() {
    local argument
    for argument in "${@:3}"; do
        case $argument in -h | --help) exec python3 "$1" --help ;; esac
    done
    python3 "$1" "$2" --parse "${@:3}" || exit
}

# run_x86 PROGRAM [ARGUMENT..]
run_x86() {
    ${emulator:+"$emulator"} "$toolchain/lib/ld-linux-x86-64.so.2" --library-path "$toolchain/lib" "$@"
}

# link_x86 OUT FILE.c ARCHIVE..: one C file, with include/ and the stand-in headers of tests/c/headers, and archives
link_x86() {
    local out=$1 source=$2 object=$1.o lib=$toolchain/lib
    shift 2
    "$toolchain/bin/clang" --target=x86_64-unknown-linux-gnu -std=c11 -Wall -Wextra -Werror -O2 -fPIE -nostdinc \
        -isystem tests/c/headers -Iinclude -c "$source" -o "$object" || return 1
    "$toolchain/bin/ld.lld" -pie -m elf_x86_64 --dynamic-linker /lib64/ld-linux-x86-64.so.2 -o "$out" \
        "$lib/Scrt1.o" "$lib/crti.o" "$lib/crtbeginS.o" "$object" "$@" "$lib/libc.so.6" "$lib/libc_nonshared.a" \
        "$lib/libgcc.a" "$lib/crtendS.o" "$lib/crtn.o"
}

# command_x86 OUT PROGRAM: a command that runs the program with no arguments
command_x86() {
    {
        printf '#!/usr/bin/env bash\n'
        declare -p toolchain emulator
        declare -f run_x86
        printf 'run_x86 %q\n' "$PWD/$2"
    } >"$1"
    chmod +x "$1"
}

# rests_on CRATE: the crate and all crates of the repository that it rests on (crates.txt), in the order in which rt takes them: those
# first that rest on nothing, then those that rest on these alone, and so on
rests_on() {
    CRATE=$1 awk '
        function visit(name,    rests, each, count, level) {
            if (name in levels) return
            count = split(rest[name], rests, " ")
            for (each = 1; each <= count; each++) if (rests[each] in rest) {
                visit(rests[each])
                if (levels[rests[each]] >= level) level = levels[rests[each]] + 1
            }
            levels[name] = level + 0
            print levels[name], name
        }
        { sub(/#.*/, "") }
        split($0, line, ":") == 2 { split(line[1], words, " "); rest[words[1]] = line[2] }
        END { if (ENVIRON["CRATE"] in rest) visit(ENVIRON["CRATE"]) }' crates.txt | sort -s -n -k 1,1 | cut -d " " -f 2
}

# stands MADE CRATE: the file MADE is there, and nothing that it was made from has changed since
stands() {
    local crate part from=(crates.txt "$kit/KIT-ID")
    [ -e "$1" ] || return
    while read -r crate; do
        for part in src specs proofs; do
            [ ! -e "crates/$crate/$part" ] || from+=("crates/$crate/$part")
        done
    done < <(rests_on "$2")
    [ -z "$(find "${from[@]}" -newer "$1" -print -quit)" ]
}

# progress WHAT LOG CRATE..: what rt prints goes into the file LOG, and which of the crates it is proving on standard error: it names each
# as it begins with it, and none that is proved already
progress() {
    local what=$1 log=$2 told='' line crate place
    shift 2
    while IFS= read -r line; do
        printf '%s\n' "$line" >&3
        [[ $line =~ ^rt:\ chose\ --jobs\ [0-9]+\ for\ ([a-z0-9_]+)$ ]] || continue
        place=0
        for crate in "$@"; do
            place=$((place + 1))
            [ "$crate" = "${BASH_REMATCH[1]}" ] || continue
            [ -n "$told" ] || printf '%s: proving and building %s, some minutes the first time\n' "$0" "$what" >&2
            [[ " $told " == *" $crate "* ]] || printf '%s: proving %d of %d: %s\n' "$0" "$place" $# "$crate" >&2
            told+=" $crate"
        done
    done 3>"$log"
}

# proving WHAT CRATE FOLDER COMMAND..: runs a command of the toolchain that proves a crate and what it rests on, one at a time where
# several scripts do, and says how far it is; where it fails its last lines, and one that says what failed
proving() {
    local what=$1 folder=$3 crates log=target/c/said.$BASHPID status=0
    mapfile -t crates < <(rests_on "$2")
    shift 3
    { mkdir -p target/c && : >"$log"; } 2>/dev/null || {
        printf '%s: target/ cannot be written here\n' "$0" >&2
        exit 1
    }
    (
        set -o pipefail
        exec 4>target/c/proving
        flock 4
        (cd "$folder" && "$@" 2>&1 </dev/null 4>&-) | progress "$what" "$log" "${crates[@]}"
    ) || status=$?
    [ "$status" -eq 0 ] || grep -v -e '^statements ' -e '^logic ' -e '^crate ' "$log" | tail -n 5 >&2
    rm -f "$log"
    [ "$status" -eq 0 ] || {
        printf '%s: %s in %s failed\n' "$0" "$*" "$folder" >&2
        exit 1
    }
}

# archive CRATE: proves what is not proved yet and writes crates/CRATE/out/libCRATE.a
archive() {
    stands "crates/$1/out/lib$1.a" "$1" || proving "the archive of $1" "$1" "crates/$1" rt lib
}

# program CRATE: proves what is not proved yet and writes crates/CRATE/out/CRATE, and target/c/CRATE, a command that runs it. (rt runs a program
# that it has built; here on no input)
program() {
    stands "crates/$1/out/$1" "$1" || proving "$1" "$1" "crates/$1" rt run
    mkdir -p target/c
    command_x86 "target/c/$1" "crates/$1/out/$1"
}
