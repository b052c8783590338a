# To be sourced, from the repository's root, by every script that builds a host program over the static library.
# There are two libraries: target/staticlib/libfstf.a for x86-64 Linux, by ./staticlib, and target/arm/libfstf.a for 64-bit Arm Linux, by arm/build.
# Both are built on x86-64, where the toolchain runs; on Arm the library is used that was brought there.
# A program is built over the machine's own and run as it is. With FSTF_EMULATED=1 it is built over the other one and run by qemu: its answers
# count, its times do not.
# It gives $host_processor, $host_archive, $host_cc, $host_rustc, $host_rust_flags and $host_runner; host_needs and host_needs_rust, which exit 2 where
# a tool is missing; host_library; host_toolchain; and host_for, which sets all of these for the processor that it names.
host_machine=$(uname -m)

# x86-64 or arm: the library, the compilers and what runs their programs on this machine.
host_for() {
    host_processor=$1
    case $host_processor in
        x86-64) host_named=x86_64 host_archive=target/staticlib/libfstf.a ;;
        arm) host_named=aarch64 host_archive=target/arm/libfstf.a ;;
    esac
    host_cc=gcc
    host_rustc=rustc
    host_rust_flags=
    host_runner=
    host_advice="install rt, python3, gcc and rustc"
    if [ "$host_machine" = "$host_named" ]; then
        return
    fi
    case $host_processor in
        x86-64) host_debian=amd64 host_prefix=x86-64 host_cc=x86_64-linux-gnu-gcc ;;
        arm) host_debian=arm64 host_prefix=aarch64 host_cc=aarch64-linux-gnu-gcc ;;
    esac
    # Debian's own, beside which libstd-rust-dev puts the standard library for the other processor
    host_rustc=/usr/bin/rustc
    host_rust_flags="--target $host_named-unknown-linux-gnu -C linker=$host_cc"
    host_runner=qemu-$host_named
    host_advice="on Debian: dpkg --add-architecture $host_debian, then apt-get update, then apt-get install \
rustc libstd-rust-dev:$host_debian gcc-$host_prefix-linux-gnu libc6-dev-$host_debian-cross qemu-user"
}

host_missing() {
    echo "missing: $1 ($host_advice)" >&2
    exit 2
}

# The tools by their names, and what runs the programs.
host_needs() {
    for host_tool in "$@" $host_runner; do
        command -v "$host_tool" >/dev/null 2>&1 || host_missing "$host_tool"
    done
}

# A Rust compiler is of use only with the standard library for the processor.
host_needs_rust() {
    host_needs "$host_rustc" "$host_cc"
    set -- "$("$host_rustc" $host_rust_flags --print target-libdir)"/libstd-*.rlib
    [ -e "$1" ] || host_missing "Rust's standard library for $host_processor"
}

# The folder of the Rattle toolchain, where its compilers stand in it, and its clang.
host_toolchain() {
    host_kit=$(dirname "$(dirname "$(readlink -f "$(command -v rt)")")")
    host_tools=toolchain
    host_clang=$host_kit/$host_tools/bin/clang
}

# Builds the library, unless no file that it is made from is newer than it. What the toolchain keeps in crates/*/out is none of these.
host_library() {
    case $host_processor in
        x86-64) host_from=staticlib host_build=./staticlib ;;
        arm) host_from="staticlib arm include/fstf.h" host_build=arm/build ;;
    esac
    if [ -e "$host_archive" ] &&
        [ -z "$(find crates/*/src crates/*/specs crates/*/proofs crates.txt $host_from -newer "$host_archive" | head -1)" ]; then
        return
    fi
    # not host_needs: what runs programs is not needed to build
    if ! command -v rt >/dev/null 2>&1; then
        [ "$host_machine" = x86_64 ] || host_advice="it runs on x86-64: there $host_build makes $host_archive"
        host_missing rt
    fi
    $host_build
}

case $host_machine,${FSTF_EMULATED:+emulated} in
    x86_64, | aarch64,emulated) host_for x86-64 ;;
    aarch64, | x86_64,emulated) host_for arm ;;
    *,emulated) host_for x86-64 ;;
    *)
        echo "there is a library for x86-64 and one for 64-bit Arm, and this is $host_machine: FSTF_EMULATED=1 runs the former by qemu" >&2
        exit 2
        ;;
esac
