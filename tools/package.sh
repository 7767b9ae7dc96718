# For ./library: what tells other build systems where the library is, and how it is installed.

# version HEADER: the version that the header has
version() { sed -n 's/^#define JENTURIK_VERSION "\(.*\)"$/\1/p' "$1"; }

# exported MODULE..: the calls that modules (tools/module) offer, a line each
exported() { sed -n '/^define internal/d; s/^define .*@\(jenturik_[a-z_]*\)(.*/\1/p' "$@"; }

# constants HEADER: the header's numbers for JavaScript, without the JENTURIK_ before their names,
# and what its codes mean
constants() {
    echo '// The numbers of jenturik.h, by the names that they have there after JENTURIK_.'
    echo "export const VERSION = \"$(version "$1")\";"
    sed -n 's/^#define JENTURIK_\(VERSION_M[A-Z]*\) \([0-9]*\)$/export const \1 = \2;/p' "$1"
    sed -n '/^enum/,/};$/s/^.*JENTURIK_\([A-Z_]*\) = \([0-9]*\).*$/export const \1 = \2;/p' "$1"
    code_text "$1"
}

# code_text HEADER: its function of that name for JavaScript, which differs in the line that begins
# it, in the list, and in texts of two parts
code_text() {
    printf '\n// What a code and its detail mean, in words that go with the node of the answer.\n'
    sed -n '/^static inline .*jenturik_code_text(/,/^}/p' "$1" |
        sed -z 's/^[^(]*([^)]*)/export function code_text(code, detail)/
            s/static const char \*const texts\[16\] = {/const texts = [/; s/};/];/
            s/"\n *"//g; s/JENTURIK_//g'
}

# pkg_config HEADER TO-HEADERS TO-LIBRARY: the file for pkg-config. The two ways are from its own
# folder, so that what is installed can be moved
pkg_config() {
    cat <<END
includedir=\${pcfiledir}/$2
libdir=\${pcfiledir}/$3

Name: Jenturik
Description: A proved on-the-fly garbage collector for graphs whose nodes have two edges
Version: $(version "$1")
Cflags: -I\${includedir}
Libs: -L\${libdir} -ljenturik
END
}

# cmake_config TO-HEADERS TO-LIBRARY: the package for CMake, with the ways from its own folder
cmake_config() {
    cat <<END
# find_package(Jenturik), and then target_link_libraries(program Jenturik::jenturik)
if(NOT TARGET Jenturik::jenturik)
  get_filename_component(_jenturik_headers "\${CMAKE_CURRENT_LIST_DIR}/$1" ABSOLUTE)
  get_filename_component(_jenturik_library "\${CMAKE_CURRENT_LIST_DIR}/$2" ABSOLUTE)
  add_library(Jenturik::jenturik STATIC IMPORTED)
  set_target_properties(Jenturik::jenturik PROPERTIES
    IMPORTED_LOCATION "\${_jenturik_library}/libjenturik.a"
    INTERFACE_INCLUDE_DIRECTORIES "\${_jenturik_headers}")
  unset(_jenturik_headers)
  unset(_jenturik_library)
endif()
END
}

# cmake_version VERSION: whom the package serves: those who ask for this version or an earlier one
# with the same first number, on a 64-bit machine
cmake_version() {
    cat <<END
set(PACKAGE_VERSION $1)
set(PACKAGE_VERSION_COMPATIBLE TRUE)
if(PACKAGE_FIND_VERSION VERSION_GREATER PACKAGE_VERSION)
  set(PACKAGE_VERSION_COMPATIBLE FALSE)
elseif(PACKAGE_FIND_VERSION AND NOT PACKAGE_FIND_VERSION_MAJOR EQUAL ${1%%.*})
  set(PACKAGE_VERSION_COMPATIBLE FALSE)
elseif(PACKAGE_FIND_VERSION VERSION_EQUAL PACKAGE_VERSION)
  set(PACKAGE_VERSION_EXACT TRUE)
endif()
if(CMAKE_SIZEOF_VOID_P AND NOT CMAKE_SIZEOF_VOID_P EQUAL 8)
  set(PACKAGE_VERSION_UNSUITABLE TRUE)
endif()
END
}

# cmake_package HEADER TO-HEADERS TO-LIBRARY FOLDER: its two files
cmake_package() {
    cmake_config "$2" "$3" >"$4/JenturikConfig.cmake"
    cmake_version "$(version "$1")" >"$4/JenturikConfigVersion.cmake"
}

# install_archive FROM PREFIX: headers, archive, pkg-config and CMake, where people expect them
install_archive() {
    local lib=$2/lib
    mkdir -p "$2/include" "$lib/pkgconfig" "$lib/cmake/Jenturik" &&
        cp "$1"/*.h "$2/include" && cp "$1/libjenturik.a" "$lib" &&
        pkg_config "$1/jenturik.h" ../../include .. >"$lib/pkgconfig/jenturik.pc" &&
        cmake_package "$1/jenturik.h" ../../../include ../.. "$lib/cmake/Jenturik"
}

# install_wasm FROM PREFIX: the WebAssembly module and its JavaScript
install_wasm() {
    mkdir -p "$2/share/jenturik" && cp "$1"/* "$2/share/jenturik"
}
