# Source this: on_capture PROGRAM SAMPLE [FILE] proves and builds a program of the repository, if need be, and runs it on a
# capture: on FILE, on standard input where that is `-`, and on the sample where none is named. Standard output is the program's alone.
on_capture() {
    local name=$1 sample=$2 top
    shift 2
    if [ $# -gt 1 ]; then
        printf '%s: takes one file at most\n' "$0" >&2
        exit 2
    fi
    case ${1-} in -h | --help)
        printf '%s [FILE | -]: on a capture, on standard input, or on %s\n' "$0" "$sample"
        exit 0
        ;;
    esac
    top=$(cd "$(dirname "${BASH_SOURCE[0]}")/.." && pwd)
    local capture=${1-$top/$sample}
    if [ "$capture" = - ]; then
        { exec 3<&0; } 2>/dev/null || {
            printf '%s: standard input is closed\n' "$0" >&2
            exit 2
        }
    elif [ -f "$capture" ] && [ -r "$capture" ]; then
        exec 3<"$capture"
    elif [ -p "$capture" ] || [ -c "$capture" ]; then
        printf "%s: '%s' is no plain file; a pipe is read from standard input, with '-'\n" "$0" "$capture" >&2
        exit 2
    else
        printf "%s: '%s' is not a file that can be read\n" "$0" "$capture" >&2
        exit 2
    fi
    cd "$top"
    . tests/x86.sh
    program "$name"
    exec "target/c/$name" <&3
}
