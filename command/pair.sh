# shellcheck shell=sh disable=SC2154,SC2034,SC3045
# ./oskuramos pair: the controls of a later Blob, with the types that TypeInfo has for their names.
longest=4194304

verb_usage() {
    cat <<'END'
./oskuramos pair [-t TABLE] TYPEINFO BLOB     lists a Blob's controls with the types that TypeInfo has for their names

  -t TABLE    takes the layout byte of another code table than data/access2000.codes

A Blob of the later layout (Access 2002 and on) that is damaged is searched for names, and these controls have type 0000. TypeInfo, the
other stream of the same form, knows the types. Each control gets the type of the first TypeInfo entry with its name; without one it
keeps its own. Names match when both are wholly ASCII, large and small letters alike. A name that was cut (typeinfo shows it with a +)
matches none. A control without a name of its own takes part as Control_ and its number.

The first line is the answer of TypeInfo (as ./oskuramos typeinfo prints it), the second that of the Blob (as ./oskuramos list does).
C: the lines of ./oskuramos list, with the types as paired.
U: number and name of each control that found no entry. A character that isn't printing ASCII, and the backslash, is \u and four
   digits of hex, or in a name that isn't UTF-16 a backslash and two. An empty name is -, and of one of more than 255 characters the
   first 255 are shown: the C line of the same number has its length.
unpaired: how many these are. It is the last line; unpaired 0 says that each control found its entry.

An Access 2000 Blob is refused: it has the type of each control itself, and ./oskuramos list shows it.
Both streams have at most 4,194,304 bytes, the Blob 16,384 controls and 262,144 properties. The time grows with controls times entries.
Exit status: 0 listed, whether all found an entry or not; 1 TypeInfo or the Blob was refused; 2 a file couldn't be read.

    ./oskuramos pair examples/later-scan.typeinfo examples/later-scan.blob
END
}

verb_option() {
    case $1 in
    -t)
        used=2
        table=${2-}
        ;;
    esac
}

# `taken` is the stream FILE; one that is too long is refused at once.
take_stream() { # FILE
    take_file "$1" "$longest" || exit 2
    [ "$(size_of "$taken")" -le "$longest" ] || { refused "$(called "$1")" "answer 5 "; exit 1; }
}

begins_as_typeinfo() { # FILE
    [ "$(od -A n -t x1 -N 4 -- "$1" | tr -d ' \n')" = f7eacdac ]
}

verb_ready() { # TYPEINFO BLOB
    [ $# -eq 2 ] || wrong_use "name a TypeInfo stream and a Blob, in this order"
    if [ "$table" = - ] && { [ "$1" = - ] || [ "$2" = - ]; }; then
        wrong_use "standard input can't be both the code table and a stream"
    fi
    take_file "$table" 0 || exit 2
    layout=$(first_byte "$taken")
    [ -n "$layout" ] || die "$table is no code table: it is empty"
    take_stream "$1"
    info=$taken
    take_stream "$2"
    blob=$taken
    make_ready pairlist
    large_stack
    { four_bytes "$((0x$layout))" && four_bytes "$(size_of "$info")" && cat -- "$info" "$blob"; } | run_program pairlist >"$scratch/printed" ||
        die "the program pairlist failed; long streams need a stack of $stack_kb KB, and the limit here is $(ulimit -s) (ulimit -Hs)"
    cat "$scratch/printed"
    judge "$(called "$1")" "$(called "$2")"
}

# Ends as the first two lines say: the answer of TypeInfo, and then that of the Blob.
judge() { # TYPEINFO BLOB
    { IFS= read -r first && IFS= read -r second; } <"$scratch/printed" || :
    case $first in
    "answer 0 "*) ;;
    *)
        refused "$1" "$first"
        ! begins_as_typeinfo "$blob" || say "$2 begins as TypeInfo does: name TypeInfo first, then the Blob"
        exit 1
        ;;
    esac
    case $second in
    "answer 0 "*) exit 0 ;;
    "answer 15 "*) say "$2 was refused: it speaks for Access 2000 (it begins with $layout), and so has the type of each control itself; ./oskuramos list shows it" ;;
    *) refused "$2" "$second" ;;
    esac
    exit 1
}
