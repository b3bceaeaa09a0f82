#!/bin/sh
# mame_run.sh STATES ANSWERS DIR: runs mame_driver.lua in MAME (Debian's package mame), with DIR for what MAME writes.
# The machine is "AMPS Car Phone", which is a 68HC11A1 and nothing else. Its ROM is a file of zeros that we make: MAME
# warns of the checksum and goes on, and no byte of it is read, since the script gives every byte that the processor
# reads.
set -eu
here=$(cd "$(dirname "$0")" && pwd)
states=$(realpath "$1")
answers=$(realpath -m "$2")
if [ ! -x /usr/games/mame ]; then
    apt-get update -qq
    DEBIAN_FRONTEND=noninteractive apt-get install -y -qq --no-install-recommends mame >/dev/null
fi
mkdir -p "$3/roms/ampscarp"
cd "$3"
head -c 131072 /dev/zero >roms/ampscarp/motorola_amps_car_phone_dump.bin
rm -f "$answers"

# MAME without a screen may crash while it ends, also with a script that only asks it to end. So its exit status says
# nothing; the script closes its answers before that, and there must be one for each state.
STATES=$states ANSWERS=$answers HOME=$PWD /usr/games/mame ampscarp -rompath roms -video none -sound none \
    -skip_gameinfo -nothrottle -seconds_to_run 600 -debug -debugger none \
    -autoboot_script "$here/mame_driver.lua" -autoboot_delay 0 >mame.log 2>&1 || true
if [ "$(wc -l <"$states")" -ne "$(wc -l <"$answers")" ]; then
    tail -n 5 mame.log >&2
    exit 1
fi
