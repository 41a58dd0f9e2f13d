#!/bin/sh
# Makes the sections of this folder again, from src/: NAME.names and NAME.str for each line of sections.txt.
#
#     sh make.sh FOLDER
#
# FOLDER is for the object files and programs. These packages of Debian 12 are needed: clang-14 (14.0.6), clang-19, lld-19, llvm-19 and
# bolt-19 (19.1.7), g++ (12.2.0), gdb (13.1) and binutils. With other versions other bytes may come out.
set -eu
here=$(cd "$(dirname "$0")" && pwd)
work=${1:?a folder for what is made on the way}
mkdir -p "$work"
cp "$here"/src/* "$work"
cd "$work"

# The flags of all units. No name of a folder goes into the sections, so that they do not depend on it.
flags="-g -gdwarf-5 -ffreestanding -fno-exceptions -fno-asynchronous-unwind-tables"

# compile COMPILER TARGET SOURCE FLAGS.. : an object file.
compile() {
    compiler=$1 target=$2 source=$3
    shift 3
    $compiler --target="$target" $flags -gpubnames -fdebug-compilation-dir=. "$@" -c "$source" -o "${source%.*}.o"
}

# three COMPILER TARGET [FLAGS] : the object files of the three units in C++.
three() {
    for unit in first second third; do
        compile "$1" "$2" $unit.cpp ${3-}
    done
}

# take PROGRAM : its two sections.
take() {
    llvm-objcopy-19 --dump-section .debug_names="$here/$1.names" --dump-section .debug_str="$here/$1.str" "$1" /dev/null
}

x86=x86_64-linux-gnu
ppc=powerpc64-linux-gnu
s390=s390x-linux-gnu
link="ld.lld-19 -e _start"

compile clang-14 $x86 shapes.c
$link shapes.o -o clang14-c
take clang14-c

three clang-14 $x86
$link first.o second.o third.o -o clang14-three
take clang14-three

compile clang-19 $x86 nested.cpp
$link nested.o -o clang19-nested
take clang19-nested

three clang-19 $x86 -fdebug-types-section
$link first.o second.o third.o -o clang19-types
take clang19-types

# The type units themselves are in nested.dwo, which nothing here reads.
compile clang-19 $x86 nested.cpp -gsplit-dwarf -fdebug-types-section
$link nested.o -o clang19-split
take clang19-split

compile clang-19 $x86 nested.cpp -gdwarf64
$link nested.o -o clang19-wide
take clang19-wide

compile clang-19 $ppc shapes.c
$link shapes.o -o clang19-ppc64
take clang19-ppc64

compile clang-19 $ppc nested.cpp -gdwarf64
$link nested.o -o clang19-ppc64-wide
take clang19-ppc64-wide

compile clang-19 $s390 inlined.c -O2
$link inlined.o -o clang19-s390x
take clang19-s390x

three clang-19 $x86
$link --debug-names first.o second.o third.o -o lld19-merged
take lld19-merged

# lld warns here that type units are not implemented.
three clang-19 $ppc -fdebug-types-section
$link --debug-names first.o second.o third.o -o lld19-ppc64-types
take lld19-ppc64-types

compile clang-19 $x86 nested.cpp
$link nested.o -o plain
llvm-dwarfutil-19 --build-accelerator=DWARF plain dwarfutil19
take dwarfutil19

# gdb reads the units, and writes an index of its own.
g++ $flags -gno-record-gcc-switches -ffile-prefix-map="$PWD"=. -nostdlib -static -no-pie first.cpp second.cpp third.cpp -o gdb13
gdb-add-index -dwarf-5 gdb13
take gdb13

# bolt reads the program, with its relocations, and the type units in the .dwo files, and writes one index of all units anew.
bolt="llvm-bolt-19 --no-threads --update-debug-sections"

three clang-19 $x86 "-gsplit-dwarf -fdebug-types-section"
$link --emit-relocs first.o second.o third.o -o split
$bolt split -o bolt19-split
take bolt19-split

# The second unit is not split: its type units are local.
compile clang-19 $x86 second.cpp -fdebug-types-section
$link --emit-relocs first.o second.o third.o -o mixed
$bolt mixed -o bolt19-mixed
take bolt19-mixed
