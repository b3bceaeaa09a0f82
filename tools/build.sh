# The programs and the C library, proved and built where they are missing or not newer than every source. Read by
# scripts that set `root` to the repository and have `say`, by which a message goes to standard error.
# shellcheck shell=sh

# The version, which include/jugrond.h has.
version() {
    sed -n 's/^#define JUGROND_VERSION "\(.*\)"$/\1/p' "$root/include/jugrond.h"
}

# Whether a crate is a library for C.
is_library() { # CRATE
    grep -q "^$1 staticlib:" "$root/crates.txt"
}

# Where what is built of a crate lies. This alone knows.
made() { # CRATE
    if is_library "$1"; then
        printf '%s/crates/%s/out/lib%s.a' "$root" "$1" "$1"
    else
        printf '%s/crates/%s/out/%s' "$root" "$1" "$1"
    fi
}

# When what is built of a crate was last found proved: a stamp of this script's own, since the toolchain leaves an older
# program where it refuses a new one. In it stand the names of what each crate's folder has.
stamp() { # CRATE
    printf '%s/build/built/%s' "$root" "$1"
}

# What the crates' folders have, without out/, which the toolchain makes there.
rooms() {
    (cd "$root/crates" && find -L . -mindepth 2 -maxdepth 2 ! -name out) | LC_ALL=C sort
}

# Whether what is built of a crate is newer than every source. Of a source the time counts that the system itself notes,
# which neither a copy nor an unpacked archive sets back; a folder's tells of files that are gone, but for a crate's own
# folder, where out/ comes and goes. Where that cannot be told, it is not newer.
newer() { # CRATE
    stamp=$(stamp "$1")
    [ -e "$(made "$1")" ] && [ -e "$stamp" ] && [ "$(rooms)" = "$(cat "$stamp")" ] || return 1
    changed=$(cd "$root" && find -L crates crates.txt -path 'crates/*/out' ! -path 'crates/*/*/out' -prune -o \
        -cnewer "$stamp" \( ! -path 'crates/*' -o -path 'crates/*/*' \) -print -quit 2>/dev/null) || return 1
    [ -z "$changed" ]
}

# What is built of a crate was found proved, by what began when FILE was made, with these names in the crates' folders.
found_proved() { # CRATE FILE ROOMS
    mkdir -p "$root/build/built" && printf '%s\n' "$3" >"$(stamp "$1")" && touch -r "$2" "$(stamp "$1")"
}

# The crates that are proved for one: itself and all that it names, in crates.txt.
crates_for() { # CRATE
    awk -v wanted="$1" '
        /^[a-z]/ { split($0, half, ":"); sub(/ .*/, "", half[1]); names[half[1]] = half[2] }
        function take(crate,  parts, n, i) {
            if (!(crate in names) || crate in taken) return
            taken[crate]; print crate
            n = split(names[crate], parts, " ")
            for (i = 1; i <= n; i++) take(parts[i])
        }
        END { take(wanted) }' "$root/crates.txt"
}

counted() { # NUMBER THING
    printf '%s %s%s' "$1" "$2" "$([ "$1" -eq 1 ] || echo s)"
}

# Whether a crate was proved here before.
was_proved() { # CRATE
    for file in "rlib/stamp" "$1.stamp" "lib$1.a"; do
        [ ! -e "$root/crates/$1/out/$file" ] || return 0
    done
    return 1
}

# What is to do, and about how long it takes on two processors: half a minute for each crate that was never proved.
announce() { # WHAT CRATES
    new=0
    for crate in $2; do was_proved "$crate" || new=$((new + 1)); done
    if [ "$new" -gt 0 ]; then
        minutes=$(((new + 1) / 2))
        say "proving and building $1: $(counted "$new" crate), about $(counted "$minutes" minute)"
    else
        say "a source has changed: looking what is to be proved again for $1"
    fi
}

# A line for each crate that is proved, counted, as it comes; all that the toolchain says is kept. It names a crate
# before it checks it, and ends with what it found.
progress() { # LOG ALL
    n=0 crate='' since=0
    tee "$1" | while IFS= read -r line; do
        case $line in
        'rt: chose --jobs '*' for '*) crate=${line##* for } since=$(date +%s) ;;
        'logic=proved '*)
            n=$((n + 1))
            printf '  %s of %s: %s proved (%s s)\n' "$n" "$2" "$crate" "$(($(date +%s) - since))" >&2
            ;;
        esac
    done
}

# A program or the C library, by the toolchain, one at a time. It counts as new as the moment at which that began, so
# that what is changed meanwhile is looked at the next time. The toolchain is a process group of its own: what ends this
# script ends it too. It also runs a program that it has built, here with nothing to read: press and trace then answer
# that there is no file, and end well.
build() { # WHAT CRATE
    if ! command -v rt >/dev/null; then
        say "$1 must be proved and built first, and the toolchain, rt, is not on the PATH"
        return 1
    fi
    mkdir -p "$root/build" && exec 9>"$root/build/lock" || return 1
    if ! flock -n 9; then
        say 'another command is building; this one goes on when it has ended'
        flock 9 || return 1
        ! newer "$2" || { exec 9>&-; return 0; }
    fi
    all=$(crates_for "$2")
    announce "$1" "$all"
    command=run
    ! is_library "$2" || command=lib
    scratch=$(mktemp -d) && mkfifo "$scratch/said" && : >"$scratch/begun" || return 1
    rooms=$(rooms)
    setsid sh -c 'cd "$1" && rt "$2" </dev/null && : >"$3"' sh "$root/crates/$2" "$command" "$scratch/proved" \
        >"$scratch/said" 2>&1 9>&- &
    toolchain=$!
    trap 'kill -TERM "-$toolchain" 2>/dev/null; rm -rf "$scratch"; exit 3' HUP INT TERM
    progress "$scratch/log" "$(echo "$all" | wc -l)" <"$scratch/said" &
    wait "$!" # a signal does not wait
    trap 'exit 3' HUP INT TERM
    built=1
    if [ -e "$scratch/proved" ]; then
        found_proved "$2" "$scratch/begun" "$rooms" && built=0
    else
        tail -n 20 "$scratch/log" >&2
        say "$1 could not be built; these are the last lines of what the toolchain said"
    fi
    rm -rf "$scratch"
    exec 9>&- # whoever waits sees the stamp
    return "$built"
}

# What is proved and built of a crate, where it is not newer than every source.
current() { # CRATE WHAT
    newer "$1" || build "$2" "$1"
}

# The checking program, the desk stepper and the C library.
current_press() { current press 'the checking program'; }
current_trace() { current trace 'the desk stepper'; }
current_library() { current monitor 'the C library'; }
