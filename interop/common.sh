# What the commands beside this file share: they work at the top of the repository; is a header there, the archive, and a folder for what is
# compiled.
here=$(pwd)
cd "$(dirname "$0")/.."
work=target/interop
mkdir -p "$work"

# choose [FILE]: the archive to link, at a path from where the user is. With none given it is made by `archive`, and that one is for x86-64.
choose() {
    library=
    if [ -n "${1-}" ]; then
        case $1 in
        /*) library=$1 ;;
        *) library=$here/$1 ;;
        esac
        [ -f "$library" ] || {
            echo "$(basename "$0"): there is no archive $1" >&2
            exit 2
        }
    elif [ "$(uname -m)" != x86_64 ]; then
        echo "$(basename "$0"): the archive that rt makes links into x86-64 programs alone: give one for $(uname -m)" >&2
        exit 2
    fi
}

# need HEADER PACKAGE
need() {
    printf '#include <stdint.h>\n#include <%s>\n' "$1" | gcc -E -x c - > /dev/null 2>&1 || {
        echo "$(basename "$0"): $1 is missing; it is in Debian's package $2" >&2
        exit 2
    }
}

# the archive that was given, or that of every call, proved and built
archive() {
    [ -z "$library" ] || return 0
    (cd crates/capi_c && rt lib) > "$work/archive.log" 2>&1 || {
        tail -n 5 "$work/archive.log" >&2
        exit 1
    }
    mkdir -p target/staticlib
    cp crates/capi_c/out/libcapi_c.a target/staticlib/libcapi.a
    library=target/staticlib/libcapi.a
}
