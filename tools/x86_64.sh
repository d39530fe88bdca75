# For a machine that is not x86-64, where shared.sh sources this file: the library and the programs are made by cross compilers and run by an emulator.
#
# The functions have the names of what they stand for, so that no script knows of it. All is from Debian's packages, installed at the first call.

foreign=/var/tmp/film-x86_64

# x86_64: installs what is missing, and has the kernel start the emulator for every program for x86-64.
x86_64() {
    dpkg --print-foreign-architectures | grep -qx amd64 || { dpkg --add-architecture amd64 && apt-get update; } >&2
    need gcc-x86-64-linux-gnu g++-x86-64-linux-gnu rustc-web libstd-rust-web-dev:amd64 libc6:amd64 libstdc++6:amd64 libffi8:amd64 libexpat1:amd64 zlib1g:amd64 qemu-user >&2
    local formats=/proc/sys/fs/binfmt_misc head='\x7fELF\x02\x01\x01\x00\x00\x00\x00\x00\x00\x00\x00\x00\x02\x00\x3e\x00'
    [ -e $formats/register ] || mount -t binfmt_misc none $formats
    [ -e $formats/film-x86_64 ] ||
        printf '%s' ":film-x86_64:M::$head:\xff\xff\xff\xff\xff\xfe\xfe\x00\xff\xff\xff\xff\xff\xff\xff\xff\xfe\xff\xff\xff:$(command -v qemu-x86_64):F" >$formats/register
}

gcc() { x86_64 && x86_64-linux-gnu-gcc "$@"; }
g++() { x86_64 && x86_64-linux-gnu-g++ "$@"; }

# Debian's compiler, since its library for x86-64 is a package too
export RUSTC=/usr/bin/rustc RUSTDOC=/usr/bin/rustdoc CARGO_BUILD_TARGET=x86_64-unknown-linux-gnu
export CARGO_TARGET_X86_64_UNKNOWN_LINUX_GNU_LINKER=x86_64-linux-gnu-gcc
rustc() { x86_64 && $RUSTC --target $CARGO_BUILD_TARGET -C linker=x86_64-linux-gnu-gcc "$@"; }
cargo() { x86_64 && command cargo "$@"; }

# for the tests in Python, which make libraries of their own
export CC=x86_64-linux-gnu-gcc
# in a folder of its own: two Pythons cannot be installed at once
python() {
    x86_64
    if [ ! -x $foreign/usr/bin/python3.11 ]; then
        (mkdir -p $foreign/packages && cd $foreign/packages && apt-get download {python3.11-minimal,libpython3.11-minimal,libpython3.11-stdlib}:amd64) >&2
        for package in $foreign/packages/*.deb; do dpkg -x "$package" $foreign; done
    fi
    PYTHONHOME=$foreign/usr $foreign/usr/bin/python3.11 "$@"
}
