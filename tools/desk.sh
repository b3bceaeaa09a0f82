# What the wrappers `press` and `trace` share; each reads it with `self` set to its own name and `folder` to the folder
# that it stands in. In the repository the programs are proved and built where they are not newer than every source;
# where they are installed (tools/install), nothing of the toolchain is needed.
# shellcheck shell=sh

say() { # MESSAGE
    printf '%s: %s\n' "$self" "$1" >&2
}

unset CDPATH # where `cd` goes must be what is written
# shellcheck source=tools/build.sh
if [ -r "$folder/tools/build.sh" ]; then
    root=$folder
    . "$root/tools/build.sh"
else
    made() { printf '%s/../libexec/jugrond/%s' "$folder" "$1"; }
    current_press() { :; }
    current_trace() { :; }
    version() { cat "$(made version)"; }
fi

# What is wrong with the arguments; the wrapper sets `usage`.
misused() { # MESSAGE
    say "$1"
    printf "usage: %s\n'%s --help' says more\n" "$usage" "$self" >&2
    exit 3
}

# The options that both have; `shown` is the wrapper's help.
common_option() { # OPTION
    case $1 in
    -h | --help) shown; exit 0 ;;
    --version) printf '%s (Jugrond) %s\n' "$self" "$(version)"; exit 0 ;;
    *) misused "unknown option '$1'; a file of that name is ./$1" ;;
    esac
}

line_feed='
'

# An argument that names a file. A name with a line feed would make two lines of an answer.
file_argument() { # NAME VALUE
    case $2 in
    '') misused "$1 is empty; it is the name of a file" ;;
    *"$line_feed"*) misused "$1 holds a line feed; no file is taken by such a name" ;;
    esac
}

# A copy of a user's file under the name that a program knows, or none where it cannot be read. It is read once, so that
# two programs judge the same bytes, and a pipe will do; a byte more than a program takes tells it that there is more.
lend() { # FILE NAME
    { head -c 65537 <"$1" >"$work/here/$2"; } 2>/dev/null || rm -f "$work/here/$2"
}

# The program's name for the image. An S-record file is told by its name alone: an image may begin with any bytes, those
# of a record too.
image_name() { # IMAGE
    case $1 in
    *.[sS]19 | *.[sS]1 | *.[sS][xX] | *.[sS][rR][eE][cC] | *.[mM][oO][tT]) printf press.s19 ;;
    *) printf press.bin ;;
    esac
}

# The two files, in a scratch folder.
lend_routine() { # IMAGE TICKET
    image=$1 ticket=$2 memory=
    work=$(mktemp -d) || exit 3
    trap 'rm -rf "$work"' EXIT
    trap 'exit 3' HUP INT TERM
    mkdir "$work/here" || exit 3
    lend "$image" "$(image_name "$image")"
    lend "$ticket" press.tkt
}

# The user's name for a file that a program names.
named() { # PROGRAM'S NAME
    case $1 in
    press.bin | press.s19) printf '%s' "$image" ;;
    press.tkt) printf '%s' "$ticket" ;;
    memory) printf '%s' "$memory" ;;
    *) printf '%s' "$1" ;;
    esac
}

unfit() { # FILE: why a program could not take it
    if [ ! -e "$1" ]; then
        say "$1: there is no such file"
    elif [ -d "$1" ]; then
        say "$1: this is a folder"
    elif [ ! -r "$1" ]; then
        say "$1: this file may not be read"
    elif [ -f "$1" ] && [ "$(stat -Lc %s -- "$1")" -gt 65536 ]; then
        say "$1: this file has more than 65,536 bytes"
    else
        say "$1: this cannot be read, or has more than 65,536 bytes"
    fi
}

# The answer FILE with the user's name, and why on standard error.
answer_file() { # PROGRAM'S NAME
    name=$(named "$1")
    printf 'FILE %s\n' "$name"
    unfit "$name"
    exit 2
}

# Nothing that the program prints comes to this.
unexpected() { # PROGRAM
    say "the program $(made "$1") ended without an answer"
    exit 3
}
