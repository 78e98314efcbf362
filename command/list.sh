# shellcheck shell=sh disable=SC2154,SC2034
# ./oskuramos list: what formlist prints, of larger Blobs and of many.
longest=4194304
longest_table=65536

verb_usage() {
    cat <<'END'
./oskuramos list [-t TABLE] BLOB..     lists the controls and properties of each Blob

  -t TABLE    reads with another code table than data/access2000.codes

The lines are those of ./formlist. The first is `answer`, a number and three counts: controls, properties, the object's own properties.
C: number, type, its name, characters of the control's name (- if it has none; 3b: three bytes that aren't UTF-16),
   first property, properties, level, number of the control that holds it (- for none).
P: number, id, its name, kind of value, value. A name that isn't known is -. An id of 8000 and more is a code that the table lacks.
A Blob has at most 4,194,304 bytes, 16,384 controls and 262,144 properties. Of several Blobs each has a line `file` with its name
before its own; one that is refused doesn't stop the others.
Exit status: 0 all listed; 1 a Blob or the code table was refused; 2 a file couldn't be read.

    ./oskuramos list examples/form-2000.blob
    ./oskuramos list examples/*.blob
    ./oskuramos list - <examples/form-2000.blob
END
}

verb_option() {
    case $1 in
    -t)
        used=2
        table=${2-}
        ;;
    esac
}

verb_ready() {
    [ $# -gt 0 ] || wrong_use "name a Blob"
    for file in "$@"; do
        [ "$table" != - ] || [ "$file" != - ] || wrong_use "standard input can't be both the code table and a Blob"
    done
    take_file "$table" "$longest_table" || exit 2
    table_file=$taken
    table_size=$(size_of "$table_file")
    [ "$table_size" -le "$longest_table" ] || die "$table is no code table: it has more than $longest_table bytes"
    make_ready bloblist
    large_stack
}

verb_file() { # FILE
    take_file "$1" "$longest" || return 2
    { four_bytes "$table_size" && cat -- "$table_file" "$taken"; } | answer_of bloblist "$1"
}
