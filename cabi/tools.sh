# Sourced by cabi/test, bench/run and bench/shape, which set `me` to their name and `top` to the repository's root.
#
# The archive libcabi.a links only into x86-64 programs. The commands that build, run and count those come from the environment:
#   X86_CARGO    a cargo that builds for x86-64                  else cargo
#   X86_CC       a C compiler for x86-64                         else cc
#   X86_RUN      runs a program                                  else nothing is needed
#   X86_COUNT    runs a program and counts its instructions      else valgrind --tool=callgrind
#   X86_OBJDUMP  disassembles                                    else objdump
# What stands behind `else` serves on an x86-64 machine. Debian's packages for it: cargo-web (Debian 12) or cargo (13), gcc, valgrind, binutils.
# On another machine, an Arm one say, all of them have to be given. Debian's packages for that, once dpkg knows the architecture amd64:
#   X86_CARGO    cargo-web and libstd-rust-web-dev:amd64 (Debian 12), or cargo and libstd-rust-dev:amd64 (13), which need x86_64-linux-gnu-gcc as the
#                linker (CARGO_TARGET_X86_64_UNKNOWN_LINUX_GNU_LINKER). Derive macros and build scripts need a standard library of the machine itself,
#                which comes with that cargo
#   X86_CC       gcc-x86-64-linux-gnu and libc6-dev-amd64-cross: x86_64-linux-gnu-gcc
#   X86_RUN      qemu-user and libc6:amd64: qemu-x86_64
#   X86_COUNT    the same, and the counter bench/insns.c, which says how it is built: qemu-x86_64 -plugin FOLDER/insns.so
#   X86_OBJDUMP  binutils-x86-64-linux-gnu: x86_64-linux-gnu-objdump
#
# libcabi.a and the program dump are proved and built first, where those in out/ of their crates were not built from these very sources. To try others:
#   CABI_LIB      an archive libcabi.a to use in the place of the one that `rt lib` in crates/cabi proves and writes
#   DUMP_PROGRAM  a program dump to use in the place of crates/dump/out/dump. With CABI_LIB alone nothing is proved, and the listings are left out
# Status 77 where one of these commands is missing, and something is left out for it; 2 where something else is in the way.

. "$top/tools/sources.sh"

stop() {
    echo "$me: $1" >&2
    exit 2
}

# Ends what something is missing for: one line, and the status 77, so that nobody takes it for a test that passed.
leave_out() {
    echo "$me: left out: $1"
    exit 77
}

# Sets each of these variables. Where a command is not there, all is left out.
needs() { # VARIABLE..
    for variable in "$@"; do
        eval "command=\${$variable-}"
        if [ -z "$command" ] && [ "$(uname -m)" = x86_64 ]; then
            case $variable in
                X86_CARGO) command=cargo ;;
                X86_CC) command=cc ;;
                X86_RUN) command='env' ;;
                X86_COUNT) command='valgrind --tool=callgrind --callgrind-out-file=/dev/null' ;;
                X86_OBJDUMP) command=objdump ;;
            esac
        fi
        [ -n "$command" ] || leave_out "this machine is not an x86-64 one, and $variable is not set"
        command -v "${command%% *}" >/dev/null || leave_out "there is no command ${command%% *} ($variable)"
        eval "$variable=\$command"
    done
}

# Proves libcabi.a, and notes from what.
prove_archive() {
    wait_turn "$me"
    ! noted "$lib/libcabi.a" "$note" || return 0
    from=$(sources)
    (cd "$top/crates/cabi" && rt lib) >&2 || stop "libcabi.a is not proved"
    write_note "$lib/libcabi.a" "$note" "$from"
}

# Sets lib, the folder that libcabi.a is in. It is proved where the one that is there was not built from these very sources.
archive() {
    if [ -n "${CABI_LIB-}" ]; then
        case $CABI_LIB in */libcabi.a) ;; *) stop "CABI_LIB is not the path of a libcabi.a: $CABI_LIB" ;; esac
        [ -r "$CABI_LIB" ] || stop "no such file: $CABI_LIB"
        lib=$(CDPATH='' cd "$(dirname "$CABI_LIB")" && pwd)
        return
    fi
    find_kit
    lib=$top/crates/cabi/out
    note=$top/target/run-proved/libcabi.a
    mkdir -p "$top/target/run-proved"
    (prove_archive) 9<"$top" || exit 2
}

# Sets dump, the program that lists. ./dump proves it where it was not built from these very sources; but where CABI_LIB is given alone nothing is to
# be proved, and dump is empty.
dump_program() {
    dump=${DUMP_PROGRAM-}
    [ -n "$dump" ] || [ -z "${CABI_LIB-}" ] || return 0
    if [ -z "$dump" ]; then
        "$top/dump" </dev/null >/dev/null || stop "the program dump is not proved"
        dump=$top/crates/dump/out/dump
    fi
    [ -r "$dump" ] || stop "no such file: $dump"
}

# cargo for x86-64, over the archive. What it builds goes to target/cargo/x86_64-unknown-linux-gnu.
x86_cargo() { # VERB ARGUMENTS..
    BALUNDUWA_LIB_DIR=$lib CARGO_TARGET_DIR=$top/target/cargo CARGO_BUILD_TARGET=x86_64-unknown-linux-gnu \
        CARGO_TARGET_X86_64_UNKNOWN_LINUX_GNU_RUNNER=$X86_RUN $X86_CARGO "$@"
}

# The same, with what it says only where it fails. Where it cannot build for the machine itself, the rest is left out.
x86_built() { # VERB ARGUMENTS..
    said=$(mktemp)
    if x86_cargo "$@" >"$said" 2>&1; then
        rm -f "$said"
        return
    fi
    if grep -q "can't find crate for .\(std\|core\)." "$said"; then
        rm -f "$said"
        leave_out "$X86_CARGO has no standard library for this machine itself (see cabi/tools.sh)"
    fi
    cat "$said" >&2
    rm -f "$said"
    stop "the Rust does not build"
}
