# shellcheck shell=bash disable=SC2154
# Sourced with `root` set to the root of the repository: the archive of the calls, and how a C program is built with it and run.
# There are two ways:
#   host  the machine's own compiler, `cc` (or $CC), and an archive for the machine: `tools/archive` makes it for x86-64; for another
#         processor ../shared/tools/native-archive did, with an older kit that has what it calls
#   kit   the kit's compiler, linker and C library, which are for x86-64, with the cut-down headers in bare/; on another
#         processor the program runs under the kit's emulator. Needs nothing but the kit
# The first that can be had is taken; KAPKYREM_BUILD=kit or =host asks for one. KAPKYREM_ARCHIVE=FILE takes an archive as it is.

out=$root/target/c
native=$root/../shared/tools/native-archive
machine=$(uname -m)

die() { printf '%s\n' "$*" >&2; exit 6; }

choose_way() {
    way=${KAPKYREM_BUILD:-}
    [ -z "$way" ] || return 0
    way=kit
    if command -v "${CC:-cc}" >/dev/null && { [ "$machine" = x86_64 ] || [ -x "$native" ]; }; then way=host; fi
}

# The kit's tools for this machine.
find_kit() {
    local rt
    rt=$(command -v rt) || die "the Rattle kit is not on the path (rt)"
    kit=$(dirname "$(dirname "$(readlink -f "$rt")")")
    if [ -d "$kit/on/$machine/toolchain" ]; then kit=$kit/on/$machine; fi
    kit=$kit/toolchain
}

# No source is newer than the file.
is_fresh() {
    [ -e "$1" ] && [ -z "$(find "$root/crates" "$root/crates.txt" \( -name must-fail -o -name out \) -prune -o -newer "$1" -print -quit)" ]
}

# Sets `archive`, and makes it where a source has changed. Only proved code gets into it.
make_archive() {
    mkdir -p "$out"
    if [ -n "${KAPKYREM_ARCHIVE:-}" ]; then
        archive=$(readlink -f "$KAPKYREM_ARCHIVE")
        return 0
    fi
    local make=("$root/tools/archive")
    archive=$root/target/staticlib/libkapkyrem.a
    if [ "$way" = host ] && [ "$machine" != x86_64 ]; then
        archive=$out/libkapkyrem-$machine.a
        make=("$native" kapkyrem_c "$archive")
    fi
    is_fresh "$archive" && return 0
    command -v rt >/dev/null || die "the Rattle kit is not on the path (rt)"
    printf 'making the archive; what it stands on is proved first, which takes some minutes on a fresh clone\n' >&2
    (cd "$root" && "${make[@]}") >"$out/archive.log" 2>&1 || { tail -n 20 "$out/archive.log" >&2; die "the archive could not be made"; }
}

# compile PROGRAM SOURCE..: C99, no warning, linked with the archive. `flags` is for the host's compiler.
flags=()
compile() {
    local program=$1
    shift
    if [ "$way" = host ]; then
        "${CC:-cc}" -std=c99 -pedantic -Wall -Wextra -Werror -O2 -g "${flags[@]}" -I"$root/include" "$@" "$archive" -pthread -o "$program"
    else
        compile_by_kit "$program" "$@"
    fi
}

compile_by_kit() {
    local program=$1 source objects=() lib
    shift
    find_kit
    lib=$kit/lib
    for source in "$@"; do
        objects+=("$program-$(basename "$source" .c).o")
        "$kit/bin/clang" --target=x86_64-unknown-linux-gnu -std=c99 -pedantic -Wall -Wextra -Werror -O2 -fPIC \
            -nostdinc -isystem "$root/desk/bare" -I"$root/include" -c "$source" -o "${objects[-1]}" || return 1
    done
    "$kit/bin/ld.lld" -pie -dynamic-linker /lib64/ld-linux-x86-64.so.2 "$lib/Scrt1.o" "$lib/crti.o" "$lib/crtbeginS.o" \
        "${objects[@]}" "$archive" "$lib/libc.so.6" "$lib/libc_nonshared.a" "$lib/libgcc.a" "$lib/crtendS.o" "$lib/crtn.o" -o "$program"
}

# launch PROGRAM ARGUMENT..
launch() {
    if [ "$way" = host ]; then
        "$@"
    else
        find_kit
        local emulator=()
        [ "$machine" = x86_64 ] || emulator=("$kit/bin/qemu-x86_64")
        "${emulator[@]}" "$kit/lib/ld-linux-x86-64.so.2" --library-path "$kit/lib" "$@"
    fi
}

# compile_desk PROGRAM
compile_desk() { compile "$1" "$root/desk/desk.c" "$root/desk/read.c" "$root/desk/say.c"; }

choose_way
