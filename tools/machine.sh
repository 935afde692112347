# The machine that code is for: x86-64 or aarch64, both with Linux. The script that reads this has `refuse`.

# Takes the machine of an object file or an archive. `cross` begins the names of its compiler and linker, `debian` is
# the name that Debian has for it, and `system` the one that compilers have.
take_machine() { # FILE
    local machine
    machine=$(readelf --file-header "$1" 2>/dev/null | sed -n 's/^  Machine: *//p' | sort -u) || true
    case $machine in
        *X86-64) cross='' debian=amd64 system=x86_64-linux-gnu ;;
        AArch64) cross=aarch64-linux-gnu- debian=arm64 system=aarch64-linux-gnu ;;
        *) refuse "$1: not code for x86-64 or aarch64" ;;
    esac
}

# Finds the functions that the kit has in C, of the heap and of the system: `functions` are the archives of them. The
# kit has them for x86-64 alone. For another machine those that are called are compiled into a folder.
take_functions() { # FOLDER
    local kit file
    if [ $debian = amd64 ]; then
        kit=$(dirname "$("${RT:-rt}" doc)")/c
        functions=("$kit/libos_c.a" "$kit/liblibc_c.a")
        return
    fi
    for file in heap os; do
        "${cross}gcc" -O2 -fPIC -Wall -Wextra -Werror -c library/linux/$file.c -o "$1/$file.o"
    done
    "${cross}ar" rcsD "$1/functions.a" "$1/heap.o" "$1/os.o"
    functions=("$1/functions.a")
}

# Ends where a tool is missing.
need_tools() { # TOOL..
    local tool
    for tool in "$@"; do
        [ -n "$(command -v "$tool")" ] \
            || refuse "$tool is missing; Debian has it in gcc, binutils or gcc-aarch64-linux-gnu, or the kit has it"
    done
}
