# For the scripts that link and run programs, which read it in: where the kit is, by its command rt. The kit is for x86-64.
command -v rt >/dev/null || { echo "the Rattle kit's command rt is not on the PATH" >&2; exit 2; }
kit=$(cd "$(dirname "$(readlink -f "$(command -v rt)")")/.." && pwd)
toolchain=$kit/toolchain
linker=$kit/bin/rattle-link
loader=$toolchain/lib/ld-linux-x86-64.so.2
