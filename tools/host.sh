# The library and the programs are for x86-64. Sourced by the host tests, at the repository's root: which compiler makes a
# program for it (host_cc, host_cxx), what runs one (host_run), and whether Rust can link it (host_rust). On another
# processor these are Debian's cross compiler (gcc-x86-64-linux-gnu) and the kit's emulator, loader and C library, where a kit
# brings them: today's is for x86-64 alone. rustc makes programs of its own machine alone there, so what Rust links is not run.
host_cc=(cc) host_cxx=(c++) host_run=()
if [ "$(uname -m)" != x86_64 ]; then
    host_cc=(x86_64-linux-gnu-gcc) host_cxx=(x86_64-linux-gnu-g++ -static-libstdc++ -static-libgcc)
    host_tools=$(dirname "$(dirname "$(readlink -f "$(command -v rt)")")")/toolchain
    host_run=("$host_tools/bin/qemu-x86_64" "$host_tools/lib/ld-linux-x86-64.so.2" --library-path "$host_tools/lib")
fi

host_have() { command -v "$1" >/dev/null 2>&1; }

host_rust() { [ "$(uname -m)" = x86_64 ] && rustc --version >/dev/null 2>&1; }

# Why Rust is not run: for the line that says so.
host_no_rust() { if host_have rustc; then echo "rustc links no x86-64 library on this machine"; else echo "no rustc here"; fi; }
