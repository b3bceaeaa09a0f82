#!/bin/sh
# gnu_build.sh DIR [OPTIONS]: builds GNU's 68HC11 simulator from Debian's package gdb-source in DIR, about half a
# minute. It leaves
#   DIR/libm6811.a   the interpreter with the parts of GNU's simulator that it needs (memory, events, interrupts)
#   DIR/cflags       options to compile a program that uses it (include gnu_open.h; link with -Wl,--gc-sections)
# The configuration is what GNU's own configure answers, the optimisation GNU's own -O2 or OPTIONS. On-chip devices and
# GNU's bfd, which only loads programs, are left out: gnu_absent.c has in their place functions that end the program.
set -eu
here=$(cd "$(dirname "$0")" && pwd)
optimise=${2:--O2}
mkdir -p "$1"
cd "$1"

archive=/usr/src/gdb.tar.xz
if [ ! -f "$archive" ]; then
    apt-get update -qq
    DEBIAN_FRONTEND=noninteractive apt-get install -y -qq --no-install-recommends gdb-source >/dev/null
fi

# 1. The source, without the debugger itself and the other simulators' tests.
rm -rf source build
mkdir source build
tar -xf "$archive" -C source --strip-components=1 \
    --exclude='gdb/gdb' --exclude='gdb/gdb/*' --exclude='gdb/sim/testsuite/*'

# 2. Headers that a full build of gdb would make.
cd build
../source/sim/configure --target=m68hc11-elf --disable-nls >configure.log 2>&1
mkdir -p gnulib
: >gnulib/config.h
sed -e 's/@supports_plugins@/0/' -e 's/@wordsize@/64/' -e 's/@bfd_default_target_size@/32/' \
    -e 's/@bfd_file_ptr@/int64_t/' -e 's/@bfd_ufile_ptr@/uint64_t/' ../source/bfd/bfd-in2.h >bfd.h

# 3. The interpreter is written by GNU's own generator.
sim=$PWD/../source/sim
gcc -O1 -w -I../source/include -I"$sim/common" -I. "$sim/m68hc11/gencode.c" -o gencode
./gencode -m6811 >m68hc11int.c

# 4. The library. Address widths as in GNU's m68hc11/Makefile.in.
cflags="$optimise -ffunction-sections -fdata-sections -DHAVE_CONFIG_H -DWITH_HW=1 -DDEFAULT_INLINE=0
 -DWITH_TARGET_WORD_BITSIZE=32 -DWITH_TARGET_CELL_BITSIZE=32 -DWITH_TARGET_ADDRESS_BITSIZE=32 -DWITH_TARGET_WORD_MSB=31
 -I$PWD/m68hc11 -I$PWD -I$sim/m68hc11 -I$sim/common -I$PWD/../source/include -I$PWD/../source/bfd -I$here"
echo $cflags >../cflags
for part in m68hc11int.c "$here/gnu_absent.c" \
    "$sim/m68hc11/m68hc11_sim.c" "$sim/m68hc11/interrupts.c" "$sim/m68hc11/emulos.c" \
    "$sim/common/sim-core.c" "$sim/common/sim-events.c" "$sim/common/sim-engine.c" "$sim/common/sim-cpu.c" \
    "$sim/common/sim-io.c" "$sim/common/sim-utils.c" "$sim/common/sim-module.c" "$sim/common/sim-options.c" \
    "$sim/common/sim-endian.c" \
    ../source/libiberty/xmalloc.c ../source/libiberty/xexit.c ../source/libiberty/lbasename.c; do
    gcc -w $cflags -c "$part"
done
rm -f ../libm6811.a
gcc-ar rcs ../libm6811.a ./*.o
