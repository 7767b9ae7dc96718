# Where the Rattle kit has what a build needs. After `find_kit`:
#   kit        the kit's folder
#   tools      its toolchain
#   libraries  its C library for x86-64
#   emulator   the command before an x86-64 program, as an array; empty on x86-64
# find_kit fails, and says why in `why`, where something is missing.
find_kit() {
    why='rt is not on the PATH: the Rattle kit is needed'
    command -v rt >/dev/null || return
    kit=$(rt doc 2>&1) || { why="rt does not work here: $kit"; return 1; }
    kit=$(dirname "$kit")
    tools=$kit/toolchain
    libraries=$tools/lib
    why="the kit has no loader for x86-64: $libraries"
    [ -x "$libraries/ld-linux-x86-64.so.2" ] || return
    emulator=()
    if [ -x "$tools/bin/qemu-x86_64" ]; then emulator=("$tools/bin/qemu-x86_64"); fi
    why="the kit has no emulator for this processor: $tools"
    [ "$(uname -m)" = x86_64 ] || [ ${#emulator[@]} -ne 0 ]
}
