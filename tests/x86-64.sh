# Read by the scripts that build C for the library, which is code for x86-64: CC is the C compiler, and EMULATOR what runs a program.
# On x86-64 these are CC or else cc, and nothing. Another processor needs both from the caller, for example
# CC='x86_64-linux-gnu-gcc -static' EMULATOR=qemu-x86_64; figures that come out of an emulator are the emulator's.
if [ "$(uname -m)" = x86_64 ]; then
    CC=${CC:-cc} EMULATOR=
elif [ -z "${CC:-}" ] || [ -z "${EMULATOR:-}" ]; then
    echo "$0: the library is code for x86-64 and this is $(uname -m): set CC to a C compiler for x86-64 and EMULATOR to what runs its programs" >&2
    exit 1
fi
