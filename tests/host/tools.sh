# tools.sh - sourced, from the repository's root: this machine's own target, how its programs are compiled, and the library to link.
# shellcheck shell=bash disable=SC2034

warnings="-std=c11 -Wall -Wextra -Wpedantic -Wconversion -Wshadow -Werror"
# The independent program, all but its own main.
independent=$(find tests/independent -name '*.c' ! -name main.c | sort | tr '\n' ' ')
case $(uname -m) in
x86_64) native=x86-64 ;;
aarch64) native=aarch64 ;;
*)
    echo "tests: this machine is neither x86-64 nor 64-bit Arm" >&2
    exit 2
    ;;
esac

# find_library NAME: sets `library` to the archive for this machine: the one that LIBTABLE names, seen from where the command was given,
# else the repository's own, proved and built.
find_library() {
    library=${LIBTABLE:-target/library/$native/lib/libpeer_table.a}
    case ${LIBTABLE:-/} in
    /*) ;;
    *) library=$OLDPWD/$LIBTABLE ;;
    esac
    [ -n "${LIBTABLE:-}" ] || ./library "$native" >/dev/null || {
        echo "$1: './library $native' failed" >&2
        exit 1
    }
    [ -f "$library" ] || {
        echo "$1: there is no library '$library'" >&2
        exit 2
    }
}
