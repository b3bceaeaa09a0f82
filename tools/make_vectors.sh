#!/bin/sh
# make_vectors.sh [DIR]: makes crates/vectors/data/vectors.txt again from two other 68HC11 simulators, GNU's and MAME's.
# It installs Debian's packages gdb-source and mame where they are missing (root is needed for that) and works in DIR,
# build/simulators if not given.
# Two runs write the same bytes. docs/SIMULATORS.md says what is compared and where the simulators are wrong.
set -eu
cd "$(dirname "$0")/.."
work=${1:-build/simulators}
export PYTHONDONTWRITEBYTECODE=1
mkdir -p "$work" crates/vectors/data

tools/simulators/gnu_build.sh "$work/gnu"
gcc -Wall -Wno-unused $(cat "$work/gnu/cflags") tools/vectors/gnu_driver.c "$work/gnu/libm6811.a" \
    -Wl,--gc-sections -Wl,--wrap=sim_core_write_buffer -o "$work/gnu_driver"

python3 tools/vectors/states.py >"$work/states.txt"
"$work/gnu_driver" <"$work/states.txt" >"$work/gnu.txt"
tools/vectors/mame_run.sh "$work/states.txt" "$work/mame.txt" "$work/mame"
python3 tools/vectors/merge.py "$work/states.txt" "$work/gnu.txt" "$work/mame.txt" crates/vectors/data/vectors.txt
dpkg-query -W gdb-source mame
