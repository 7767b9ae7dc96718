# The crates that the library is made of, the machines that it is built for, and how a crate's
# module (tools/module) is compiled for one. After find_kit (tools/kit.sh).

# The crates that are offered to C. Each is an object of its own: what two of them have in common is
# in both.
# shellcheck disable=SC2034
modules='jenturik_c jenturik_text'

# A machine's name here, and its name for LLVM.
targets='
x86-64-linux     x86_64-unknown-linux-gnu
aarch64-linux    aarch64-unknown-linux-gnu
aarch64-android  aarch64-unknown-linux-android21
wasm32           wasm32-unknown-unknown'

# target_names: the names, in this order
target_names() { awk 'NF { print $1 }' <<<"$targets"; }

# triple NAME: LLVM's name; fails where there is no such machine
triple() {
    awk -v name="$1" '$1 == name { print $2; found = 1 } END { exit !found }' <<<"$targets"
}

# own_target: the name of this machine; fails where the library is not built for it
own_target() {
    case $(uname -m) in
    x86_64) echo x86-64-linux ;;
    aarch64) echo aarch64-linux ;;
    *) return 1 ;;
    esac
}

# How modules are compiled, for every machine and for ./bench too. Crates have many small functions;
# with so high a threshold a call becomes one function, and takes about half the time.
optimised=(-O3 -mllvm -inline-threshold=3000 -fPIC -ffunction-sections)

# compile MODULE NAME OBJECT: the module compiled for the machine NAME. What fills and copies bytes
# is in the object (tools/memory.c): a back end asks for memset and memcpy, and the object asks for
# nothing, so that it needs no C library. WebAssembly has instructions for both.
compile() {
    local flags memory=() here
    here=$(dirname "${BASH_SOURCE[0]}")
    flags=(--target="$(triple "$2")" "${optimised[@]}")
    if [ "$2" != wasm32 ]; then
        "$tools/bin/clang" "${flags[@]}" -ffreestanding -Wall -Wextra -Werror -Xclang \
            -disable-llvm-passes -c -emit-llvm "$here/memory.c" -o "$3.memory" || return
        memory=(-Xclang -mlink-bitcode-file -Xclang "$3.memory")
    fi
    "$tools/bin/clang" "${flags[@]}" "${memory[@]}" -Wno-override-module -x ir "$1" -c -o "$3"
}
