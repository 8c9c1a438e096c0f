# The module of a proved crate, and its object for a target: for the scripts of tools/ that source this from the project's root, with their
# name in `tool`. rattle compiles for x86-64 and AArch64 itself. What comes out of here for another processor is not rattle's own: the tests
# are what tries it.
#
#     of_target TARGET             sets triple, flags, way and attributes; stops at a name that is not known
#     proved NAME [TRIPLE]         proves the crate NAME and has rattle build it for TRIPLE, x86-64 where none is given: sets module and made to
#                                  the files of its module and of what rattle made of that, how to the words of the compilation
#     table HEADER FUNCTIONS..     a C file that names all these functions of a header
#     declared FILE WORDS..        writes FILE: what clang makes of C for the target, as text
#     retold WAY FILE              the module for the target, held to such a FILE (tools/module.awk)
#     object WAY FILE OUT          writes OUT, the module's object for the target
#     links FILES..                stops where FILES need anything but `outside`; sets needed to what they need of it
targets='x86_64-linux-gnu aarch64-linux-gnu riscv64-linux-gnu armv7-linux-gnueabihf thumbv7em-none-eabihf'

stop() { echo "$tool: $*" >&2; exit 1; }

pin=$(sed -n 's/.*`\(rattle-kit-[^`]*\)` (`rt version`).*/\1/p' README.md)
[ -n "$pin" ] || stop 'README.md names no kit'
[ "$(rt version)" = "$pin" ] || stop "the kit is $(rt version), and what may stand in a module is known of $pin alone"
logic=${pin##* }
kit=$(cd "$(dirname "$(rt doc)")" && pwd -P)
tools=$kit/toolchain
x86=x86_64-unknown-linux-gnu
# A script with paths in single quotes is written below.
case $PWD$kit in *\'*) stop 'a folder with a quote in its name' ;; esac

mkdir -p target
room=$(mktemp -d "$PWD/target/tools.XXXXXX")
trap 'rm -rf "$room"' EXIT

# LLVM probes large stack frames, as on x86-64, on all but Arm.
of_target() {
    local probes='{ nounwind "probe-stack"="inline-asm" "stack-probe-size"="3072" }'
    case $1 in
    x86_64-linux-gnu) triple=$x86 flags=() way=rattle attributes= ;;
    aarch64-linux-gnu) triple=aarch64-unknown-linux-gnu flags=(-march=armv8-a) way=rattle attributes=$probes ;;
    riscv64-linux-gnu) triple=riscv64-unknown-linux-gnu flags=(-march=rv64gc -mabi=lp64d) way=exported attributes=$probes ;;
    armv7-linux-gnueabihf)
        triple=armv7-unknown-linux-gnueabihf way=inner attributes='{ nounwind }'
        flags=(-march=armv7-a -mfpu=vfpv3-d16 -mfloat-abi=hard)
        ;;
    thumbv7em-none-eabihf)
        triple=thumbv7em-unknown-none-eabihf way=inner attributes='{ nounwind }'
        flags=(-mcpu=cortex-m4 -mfpu=fpv4-sp-d16 -mfloat-abi=hard -fno-pic)
        ;;
    *) stop "no target $1; there are: $targets" ;;
    esac
}

# What rattle says to clang of every module for x86-64 but for the target, of a library's and of a program's.
common=(-mllvm -no-trap-after-noreturn -ffunction-sections -fdata-sections -mllvm -trap-unreachable -mllvm -no-x86-call-frame-opt
    -mllvm -disable-machine-licm -mllvm -disable-postra-machine-licm -mllvm -sink-common-insts=false --no-default-config
    -no-canonical-prefixes -fintegrated-cc1 -fno-crash-diagnostics -Werror)
how_library=(-fPIC -O3)
how_program=(-fPIE -O3 -Xclang -fmerge-functions -mllvm -mergefunc-use-aliases)

# rattle gives the module to the clang of a folder that it is told, in a temporary folder and with an empty environment. The clang of this
# folder keeps what it is given, and does what it is asked.
keeper() { # FOLDER
    local file
    mkdir -p "$1/bin"
    ln -s "$tools/lib" "$1/lib"
    for file in "$tools"/bin/*; do [ "${file##*/}" = clang ] || ln -s "$file" "$1/bin/"; done
    cat >"$1/bin/clang" <<END
#!/bin/sh
set -eu
PATH=/usr/bin:/bin
cp module.bc '$1/module.bc'
printf '%s\n' "\$*" >>'$1/words'
exec '$tools/bin/clang' "\$@"
END
    chmod +x "$1/bin/clang"
}

# A crate and those of the repository under it.
under() { # NAME
    awk -v name="$1" '
        { sub(/#.*/, "") }
        /:/ { at = index($0, ":"); split(substr($0, 1, at - 1), word, " "); uses[word[1]] = substr($0, at + 1) }
        END {
            found[count = 1] = name
            for (i = 1; i <= count; i++) {
                print found[i]
                n = split(uses[found[i]], part, " ")
                for (k = 1; k <= n; k++) if (part[k] in uses && !(part[k] in seen)) { seen[part[k]] = 1; found[++count] = part[k] }
            }
        }' crates.txt
}

# A sum of all that they are proved from.
sum_of() { # NAME
    local crate
    {
        cat crates.txt tools/module.sh
        for crate in $(under "$1" | sort); do
            find "crates/$crate" -name out -prune -o -type f \( -name '*.rt' -o -name '*.antt' \) -exec sha256sum {} + | sort -k 2
        done
    } | sha256sum | sed 's/ .*//'
}

# Every processor of x86-64 is to run what comes out, and not only those that rattle takes where nothing is said. The first line of the text is
# the stamp of what was proved: where it is the same, nothing is proved or built again.
proved() { # NAME [TRIPLE]
    local name=$1 end=${2:-$x86} file=src/lib.rt words=() kind=(--crate-type staticlib) by=check cpu=() stamp crate folder
    module=target/module/$name-$end.ll made=target/module/$name-$end
    how=("${how_library[@]}")
    if [ ! -f "crates/$name/$file" ]; then file=src/main.rt kind=() how=("${how_program[@]}"); fi
    [ -f "crates/$name/$file" ] || stop "no crate $name"
    stamp="; $pin $(sum_of "$name")"
    if [ -f "$module" ] && [ -f "$made" ] && [ "$(head -n 1 "$module")" = "$stamp" ]; then return; fi
    if [ "$end" = "$x86" ]; then cpu=(--cpu=x86-64); fi
    if [ "$file $end" = "src/lib.rt $x86" ]; then by=lib; fi
    (cd "crates/$name" && rt "$by" "${cpu[@]}" </dev/null) >"$room/said" 2>&1 || { tail -n 20 "$room/said" >&2; stop "$name is not proved"; }
    for crate in $(sed -n "s/#.*//; s/^$name\( staticlib\)* *: *//p" crates.txt); do
        if [ -d "crates/$crate" ]; then words+=(--extern "$crate=$PWD/crates/$crate/out/rlib/$crate.rlib"); else words+=(--extern "$crate=$kit/rlibs/$crate.rlib"); fi
    done
    for crate in $(under "$name"); do [ "$crate" = "$name" ] || words+=(-L "dependency=$PWD/crates/$crate/out/rlib"); done
    folder=$room/toolchain-$end
    keeper "$folder"
    (
        cd "crates/$name"
        "$kit/bin/rattle" build --crate-name "$name" "$file" --extern "std=$kit/rlibs/std.rlib" "${words[@]}" -L "dependency=$kit/rlibs" \
            --antt-project "$kit/rattle/logic/antt-project.json" --logic-built "$kit/logic_built" --links "$name=" "${kind[@]}" \
            --target "$end" "${cpu[@]}" --backend llvm --toolchain "$folder" --incremental out/incremental -o "$room/built"
    ) >"$room/said" 2>&1 || { tail -n 20 "$room/said" >&2; stop "$name is not built"; }
    grep -q "^logic=proved .*target=$end sum=$logic " "$room/said" || stop "rattle does not say that $name is proved"
    if grep -q '^logic=proved .*foreign=' "$room/said"; then stop "$name declares C functions of its own"; fi
    if [ "$end" = "$x86" ]; then
        [ "$(cat "$folder/words")" = "--target=$x86 --sysroot=$folder -march=x86-64 ${common[*]} -c -x ir module.bc -o module.o ${how[*]}" ] ||
            stop "rattle calls clang otherwise than is known: $(cat "$folder/words")"
    fi
    if [ "$by" = lib ] && ! cmp "$room/built" "crates/$name/out/lib$name.a"; then stop 'rt lib writes another archive'; fi
    mkdir -p target/module
    "$tools/bin/clang" --target="$end" -S -emit-llvm -O3 -Xclang -disable-llvm-passes -x ir "$folder/module.bc" -o "$room/text"
    { echo "$stamp"; cat "$room/text"; } >"$room/stamped"
    rm -rf "$folder" "$module"
    mv -f "$room/built" "$made"
    mv -f "$room/stamped" "$module"
}

# The three headers that castanhiu.h names say the same of every target; clang's own are not in the kit.
c_words=(-std=c11 -Wall -Wextra -Werror -ffreestanding -nostdinc -isystem tests/host/kit)

table() { # HEADER FUNCTIONS..
    printf '#include "%s"\nvoid (*const all[])(void) = {\n' "$1"
    printf '    (void (*)(void))%s,\n' "${@:2}"
    echo '};'
}

declared() { # FILE WORDS..
    local file=$1
    shift
    "$tools/bin/clang" --target="$triple" "${flags[@]}" "${c_words[@]}" "$@" -S -emit-llvm -O0 -o "$file" || stop 'clang refuses the C declarations'
}

retold() { # WAY FILE
    awk -v way="$1" -v triple="$triple" -v attributes="$attributes" -v logic="$logic" -v tool="$tool" -f tools/module.awk "$2" "$module"
}

object() { # WAY FILE OUT
    retold "$1" "$2" >"$room/retold.ll" || stop "the module is not compiled for $triple"
    "$tools/bin/clang" --target="$triple" "${common[@]}" "${how[@]}" "${flags[@]}" -c -x ir "$room/retold.ll" -o "$3" || stop 'clang refuses the module'
}

links() { # FILES..
    local name words=()
    for name in $outside; do words+=("--defsym=$name=0"); done
    "$tools/bin/ld.lld" --whole-archive "$@" -e 0 --error-limit=0 -o "$room/linked" >"$room/said" 2>&1 || true
    needed=$(sed -n 's/.* undefined symbol: //p' "$room/said" | sort | tr '\n' ' ')
    "$tools/bin/ld.lld" --whole-archive "$@" -e 0 "${words[@]}" -o "$room/linked" >"$room/said" 2>&1 ||
        { cat "$room/said" >&2; stop "more is needed than $outside"; }
}
