#!/bin/sh
# Builds the examples into ELF32 executables for ARM: count.elf beside this script, and NAME/image.elf; or, with a folder
# named, count.elf and NAME.elf in that folder.
#
#     sh examples/build.sh [FOLDER]
#
# Takes GCC for ARM where it is there, else clang with lld for count.elf alone: facts name addresses of the images, and
# these are GCC's. Without either it says so and ends with status 2. The same compiler makes the same bytes, whatever
# folder it is run in; the images that are kept here are by arm-none-eabi-gcc 12.2.1 with binutils 2.40.
set -eu

here=$(cd "$(dirname "$0")" && pwd)
there=${1:-}
if [ -n "$there" ]; then there=$(cd "$there" && pwd); fi
common="-marm -ffreestanding -nostdlib -fno-unwind-tables -fno-asynchronous-unwind-tables -fno-ident"
linked="-static -Wl,-n -Wl,--build-id=none"

# where an image goes: path_of NAME PLACE, the place being the one beside this script
path_of() {
    if [ -n "$there" ]; then echo "$there/$1.elf"; else echo "$here/$2"; fi
}

# an image from a source and the common start: example NAME ARCHITECTURE
example() {
    image=$(path_of "$1" "$1/image.elf")
    # from its own folder and with objects named, so that no name of a folder or of a passing file gets into the image
    work=$(mktemp -d)
    (
        cd "$here"
        "$gcc" -march="$2" $common -c -o "$work/start.o" start.s
        "$gcc" -march="$2" -O1 $common -c -o "$work/$1.o" "$1/$1.c"
        "$gcc" -march="$2" $common $linked -Wl,-T,program.ld -o "$image" "$work/start.o" "$work/$1.o"
    )
    rm -r "$work"
    echo "$image by $gcc $("$gcc" -dumpfullversion)"
    only_known "$image"
}

# Mnemonics that the instruction table knows, as objdump spells them; it prints data among code as .word. This is a first
# look only: which words are instructions is decided by the table in docs/FORMATS.md.
known='(and|eor|sub|rsb|add|adc|sbc|rsc|orr|mov|bic|mvn|lsl|lsr|asr|ror|rrx|neg)s?|tst|teq|cmp|cmn'
known="$known|(mul|mla|umull|umlal|smull|smlal)s?|(ldr|str)(b|h)?|ldrs(b|h)|push|pop|(ldm|stm)(ia|ib|da|db|fd)?|b|bl|bx|blx|svc"
conditions='(eq|ne|cs|cc|mi|pl|vs|vc|hi|ls|ge|lt|gt|le)?'

# names what an image has besides: only_known IMAGE
only_known() {
    dump=${gcc%gcc}objdump
    foreign=$("$dump" -d -z --no-show-raw-insn "$1" | awk -F'\t' 'NF > 1 { split($2, part, " "); print part[1] }' \
        | grep -Evx "($known)$conditions|\.word" | sort -u | tr '\n' ' ')
    if [ -n "$foreign" ]; then echo "  not in the table: $foreign"; fi
}

for gcc in arm-none-eabi-gcc arm-linux-gnueabi-gcc; do
    if command -v "$gcc" >/dev/null 2>&1; then
        image=$(path_of count count.elf)
        "$gcc" -march=armv5te -Os $common $linked -Wl,-T,"$here/count.ld" -o "$image" "$here/count.c"
        echo "$image by $gcc $("$gcc" -dumpfullversion)"
        example sum armv4t
        example matrix armv4t
        example interpreter armv4t
        example pointers armv5t
        example recursion armv4t
        exit 0
    fi
done

if command -v clang >/dev/null 2>&1 && command -v ld.lld >/dev/null 2>&1; then
    image=$(path_of count count.elf)
    object=${image%.elf}.o
    clang --target=armv5te-none-eabi -Os $common -c -o "$object" "$here/count.c"
    ld.lld -n -T "$here/count.ld" -o "$image" "$object"
    rm -f "$object"
    echo "$image by clang"
    exit 0
fi

echo "no compiler for ARM is here" >&2
exit 2
