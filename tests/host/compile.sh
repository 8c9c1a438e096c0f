# Compiles C against the archive and runs it, for the scripts that source this from the project's root.
#
#     compiled PROGRAM FLAGS.. FILES..    writes PROGRAM
#     running PROGRAM ARGUMENTS..         runs it, behind the words of `runner`
#     sizes ARCHIVE                       its bytes of code, of constants (on Arm with the index for unwinding), of data and of zeroed data
#
# The kit is for x86-64. The machine's own `cc` compiles, and where KIT=1 is set the kit's clang does, with the C library that the kit brings.
[ "$(uname -m)" = x86_64 ] || { echo "$0: the kit is for x86-64, and this is $(uname -m)" >&2; exit 1; }
kit=$(dirname "$(rt doc)")
tools=$kit/toolchain
library=$tools/lib
host=tests/host
flags='-std=c11 -Wall -Wextra -Werror -Iinclude'

compiled() {
    local program=$1 objects=() words=() word object
    shift
    if [ "${KIT:-0}" != 1 ]; then
        # shellcheck disable=SC2086
        ${CC:-cc} $flags "$@" -o "$program"
        return
    fi
    for word in "$@"; do
        case $word in
        *.c) objects+=("$word") ;;
        *.a) words+=("$word") ;;
        esac
    done
    local options=()
    for word in "$@"; do case $word in -*) options+=("$word") ;; esac; done
    local made=()
    for word in "${objects[@]}"; do
        object=$program-$(basename "$word" .c).o
        # shellcheck disable=SC2086
        "$tools/bin/clang" --target=x86_64-linux-gnu -fPIE -nostdinc -isystem "$host/kit" $flags "${options[@]}" \
            -c "$word" -o "$object" || return
        made+=("$object")
    done
    "$tools/bin/ld.lld" -pie --dynamic-linker "$library/ld-linux-x86-64.so.2" -o "$program" \
        "$library/Scrt1.o" "$library/crti.o" "$library/crtbeginS.o" "${made[@]}" "${words[@]}" \
        "$library/libc.so.6" "$library/libc_nonshared.a" "$library/crtendS.o" "$library/crtn.o"
}

# What stands in front of a program that is run.
runner=()
if [ "${KIT:-0}" = 1 ]; then runner=("$library/ld-linux-x86-64.so.2" --library-path "$library"); fi

running() { "${runner[@]}" "$@"; }

sizes() {
    if ! command -v size >/dev/null; then echo 'not measured: size is missing'; return; fi
    size -A "$1" | awk '
        /^\.text/ { code += $2 }
        /^\.s?rodata/ || /^\.ARM\.exidx/ { constants += $2 }
        /^\.s?data/ { data += $2 }
        /^\.s?bss/ { zeroed += $2 }
        END { if (code > 0) printf "%6d %5d %3d %3d\n", code, constants, data, zeroed; else print "not measured" }'
}
