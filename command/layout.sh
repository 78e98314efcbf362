# shellcheck shell=sh disable=SC2154,SC2034
# ./oskuramos layout: for which layout each Blob speaks.
expected=

verb_usage() {
    cat <<'END'
./oskuramos layout [-t TABLE] [--expect 2000|later] BLOB..     says for which layout each Blob speaks

  -t TABLE          takes the layout byte of another code table than data/access2000.codes
  --expect 2000     refuses each Blob that speaks for the later layout
  --expect later    refuses each Blob that speaks for Access 2000

A Blob whose first byte is the layout byte, which is the first byte of the code table, speaks for Access 2000; every other one, an empty
file too, for the later layout (Access 2002 and on). These two bytes are all that is looked at: ./oskuramos list says whether a Blob can be read.
A line for each Blob: its layout (2000 or later), its first byte in hex (- for an empty file), its name.
Exit status: 0 all said, and as expected; 1 a Blob speaks for the other layout; 2 a file couldn't be read.

    ./oskuramos layout examples/*.blob
    ./oskuramos layout --expect 2000 examples/form-2000.blob
END
}

verb_option() {
    case $1 in
    -t)
        used=2
        table=${2-}
        ;;
    --expect)
        [ "$left" -ge 2 ] || wrong_use "--expect wants a layout after it: 2000 or later"
        case $2 in
        2000 | later) expected=$2 ;;
        *) wrong_use "--expect is 2000 or later, and not $2" ;;
        esac
        used=2
        ;;
    esac
}

# `first` is the first byte of a file. It is all that is read.
take_first() { # FILE
    take_file "$1" 0 || return 2
    first=$(first_byte "$taken")
}

verb_ready() {
    [ $# -gt 0 ] || wrong_use "name a Blob"
    for file in "$@"; do
        [ "$table" != - ] || [ "$file" != - ] || wrong_use "standard input can't be both the code table and a Blob"
    done
    take_first "$table" || exit 2
    layout=$first
    [ -n "$layout" ] || die "$table is no code table: it is empty"
}

# The lines have the names.
verb_heading() { :; }

verb_file() { # FILE
    take_first "$1" || return 2
    if [ "$first" = "$layout" ]; then
        found=2000 words="Access 2000" other="the later layout" why="it begins with $layout, the layout byte"
    else
        found=later words="the later layout" other="Access 2000" why="it begins with $first, and the layout byte is $layout"
        [ -n "$first" ] || why="it is empty"
    fi
    printf '%s %s %s\n' "$found" "${first:--}" "$1" 2>/dev/null
    [ "$found" = "${expected:-$found}" ] && return 0
    say "$(called "$1") was refused: it speaks for $words, and $other is expected ($why); see in your register which file this is"
    return 1
}
