# shellcheck shell=sh disable=SC2154,SC2034
# ./oskuramos room: how many rows are enough for streams of a length.

verb_usage() {
    cat <<'END'
./oskuramos room LENGTH..     says how many rows are enough for every stream of at most LENGTH bytes

LENGTH is a number of bytes; after it K is times 1,024 and M times 1,048,576: 30204, 10K, 4M.
With so many rows lent, no stream of at most so many bytes is refused with 6 or 7, so buffers can be fixed once.
Blob: for a caller who doesn't know the layout, and for one who does. The bytes are those of the rows.
A stream of more than 16,777,216 bytes is refused before it needs a row, so there the rows stay as they are.
Exit status: 0 all said; 2 a word is no length.

    ./oskuramos room 10K
    ./oskuramos room 4194304 16M
END
}

verb_option() { :; }

verb_ready() {
    [ $# -gt 0 ] || wrong_use "name a length in bytes, such as 4194304 or 4M"
    make_ready roomlist
}

# The lines say themselves of which length they are.
verb_heading() { :; }

verb_file() { # LENGTH
    times=1
    digits=$1
    case $1 in
    *[Kk]) times=1024 digits=${1%?} ;;
    *[Mm]) times=1048576 digits=${1%?} ;;
    esac
    case $digits in
    '' | *[!0-9]* | 0?*)
        say "$1 is no length: write a number of bytes, such as 4194304 or 4M"
        [ ! -f "$1" ] || say "the file $1 has $(size_of "$1") bytes"
        return 2
        ;;
    ???????????*) length=4294967296 ;;
    *) length=$((digits * times)) ;;
    esac
    [ "$length" -lt 4294967296 ] || { say "$1 is too large: a length is below 4,294,967,296 bytes"; return 2; }
    four_bytes "$length" | run_program roomlist
}
