# What the tests in shell share: a comparison that is counted, bytes put into a file, tools of Debian's. To be sourced.
# shellcheck shell=sh
passed=0 failed=0

same() { # NAME EXPECTED FOUND
    if [ "$2" = "$3" ]; then
        passed=$((passed + 1))
    else
        printf "FAILED: %s: expected '%s', found '%s'\n" "$1" "$2" "$3"
        failed=$((failed + 1))
    fi
}

# The last line of a test; its status is the test's.
counts() {
    echo "$passed passed, $failed failed"
    [ "$failed" -eq 0 ]
}

patched() { # FILE OFFSET BYTES, in octal
    # shellcheck disable=SC2059
    printf "$3" | dd of="$1" bs=1 seek="$2" conv=notrunc status=none
}

put_in() { # FILE OFFSET BYTES, in octal: what stood there comes after them
    # shellcheck disable=SC2059
    { head -c "$2" "$1"; printf "$3"; tail -c +$(($2 + 1)) "$1"; } >"$1.longer" && mv "$1.longer" "$1"
}

# A name at once after each mark of a ticket without names, as old ones could have them; at the first marks alone where
# the file would be longer than the programs take. Marks begin at 22, after a home (7) at 25.
put_names() { # FILE
    # shellcheck disable=SC2059
    printf "$(od -An -v -to1 -w1 "$1" | awk '
        { byte[NR] = "\\" $1 }
        END {
            name = "\\101\\040\\116\\101\\115\\105\\040\\176" # A NAME ~
            room = int((65536 - NR) / 11)
            from = byte[23] == "\\007" ? 26 : 23
            for (i = 1; i <= NR; i++) {
                printf "%s", byte[i]
                if (i < from || (i - from) % 11 != 10 || byte[i - 10] != "\\005" || room-- <= 0) continue
                printf "%s", "\\006" byte[i - 9] byte[i - 8] name
            }
        }')" >"$1.longer" && mv "$1.longer" "$1"
}

# Whether a command can be had; Debian's package with it is installed where it is missing.
had() { # COMMAND PACKAGE
    command -v "$1" >/dev/null && return
    log=$(mktemp) || return 1
    {
        apt-get update -q
        DEBIAN_FRONTEND=noninteractive apt-get install -y -q --no-install-recommends "$2"
    } >"$log" 2>&1 || cat "$log"
    rm -f "$log"
    command -v "$1" >/dev/null
}

# GNU's assembler for the 68HC11, with its linker and objcopy.
assembler() { had m68hc11-as binutils-m68hc1x; }
