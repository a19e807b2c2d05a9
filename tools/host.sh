# The archive for C and the programs are code for x86-64 Linux. Sourced by ./test and ./example, this names what compiles a host for that
# machine and what runs it: the machine's own compilers and no emulator, or on another processor what .ci/install installs.
host_rustc=(rustc) host_cc=(cc) host_cxx=(g++) emulator=()
if [ "$(uname -m)" != x86_64 ]; then
    host_rustc=(/usr/bin/rustc --target x86_64-unknown-linux-gnu -C linker=x86_64-linux-gnu-gcc)
    host_cc=(x86_64-linux-gnu-gcc)
    host_cxx=(x86_64-linux-gnu-g++)
    emulator=(qemu-x86_64)
fi

# run PROGRAM WORDS..: runs a program that was made for x86-64.
run() {
    "${emulator[@]}" "$@"
}
