# P, damaged so that it is refused: once for each cause of a verdict. To be sourced after tests/shared.sh; $root is the
# repository.
#
# shellcheck shell=sh disable=SC2154
#
# P's ticket has its windows at 0, 5 and 10, its entry at 15, its marks from 22 on, 11 bytes each, and its end at 88.

# P's two files in the current folder.
undamaged() {
    cp "$root/examples/p/p.bin" press.bin && cp "$root/examples/p/p.tkt" press.tkt
}

ticket() { patched press.tkt "$@"; }
image() { patched press.bin "$@"; }

# A home after the entry: what follows stands three bytes later.
homed() { put_in press.tkt 22 "\\007$1"; } # ITS TWO BYTES, in octal

# P's ticket, and in place of its image an S-record file of these lines. P's image is one line,
# S10E800036BD80083239010197403979: 14 bytes follow the count, and the code window is $8000 to $800A.
records() { # LINE..
    undamaged && rm press.bin && printf '%s\n' "$@" >press.s19
}

damaged() { # CAUSE
    undamaged
    case $1 in
    1) ticket 33 '\377' ;;         # no such command
    2) truncate -s 88 press.tkt ;; # no end
    3) ticket 35 '\0' ;;           # two marks at $8000
    4) ticket 40 '\004' ;;         # depth 1,025 at $8001
    5) ticket 1 '\377\377' ;;      # code from $FFFF on
    6) ticket 6 '\001\360' ;;      # data at $01F0, as the stack
    7) ticket 79 '\013' ;;         # a mark at $800B
    8) truncate -s 90 press.tkt ;; # a byte after the end
    9) truncate -s 12 press.bin ;; # a byte too many
    10) image 5 '\101' ;;          # $41 at $8005
    11) image 5 '\073' ;;          # RTI at $8005
    12) ticket 9 '\0' ;;           # no data
    13) image 4 '\070' ;;          # PULX at depth 1
    14) ticket 46 '\003' ;;        # $8004 not marked
    15) ticket 41 '\0' ;;          # depth 0 at $8001
    16) ticket 39 '\026' ;;        # cost 22 at $8001
    17) ticket 43 '\001' ;;        # need 1 at $8001
    18) ticket 17 '\002' ;;        # entry at $8002
    19) ticket 21 '\031' ;;        # limit 25
    20) ticket 14 '\004' ;;        # a stack of 4 bytes
    25) records S10E800036BD80083239010197403979 ;;            # no S9
    26) records S10E800036BD80083239010197403978 S9030000FC ;; # a checksum too low by one
    27) records S10E800136BD80083239010197403978 S9030000FC ;; # from $8001 on, so that $800B is given
    29) homed '\200\012' ;;        # home at $800A
    esac
}
