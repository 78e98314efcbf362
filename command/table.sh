# shellcheck shell=sh disable=SC2154,SC2034
# ./oskuramos table: a code table as text, and back.
longest_table=65100
longest_text=2097152
from=
to=

verb_usage() {
    cat <<'END'
./oskuramos table TABLE..               shows a code table as text; one that isn't well formed is refused: where it breaks which rule
./oskuramos table --from TEXT -o TABLE  makes a code table from such text; an error is told by its line, and TABLE stays as it was

A line of the text is one of these, and # begins a remark up to the line's end:

  layout 13        the layout byte, once, first
  header 0099      a header code; up to four, ascending, before the scopes
  form             a scope: the rows of a form itself; report likewise
  entry 0064       a scope: the rows of entries of that type
  60 0036 number   a row of the scope above it: id (up to FC), target (up to 7FFF), kind (number, text, guid, double or bytes)

Scopes ascend (form, report, entries by code; up to 64), and so do the ids of each. Numbers are hex, of two or four digits. Shown after #
are the names of control types and of properties; they are for the reader alone. A text has at most 2,097,152 bytes.
Exit status: 0 all well; 1 a table or a text was refused; 2 a file couldn't be read or written.

    ./oskuramos table data/access2000.codes >codes.txt
    ./oskuramos table --from codes.txt -o mine.codes
END
}

verb_option() {
    case $1 in
    --from)
        used=2
        from=${2-}
        ;;
    -o)
        used=2
        to=${2-}
        ;;
    esac
}

verb_ready() {
    if [ -n "$from" ]; then
        [ -n "$to" ] || wrong_use "--from wants -o and the table to write"
        [ $# -eq 0 ] || wrong_use "--from makes one table of one text; leave out $1"
        make_ready tablemake
        large_stack
        make_table
        exit
    fi
    [ -z "$to" ] || wrong_use "-o goes with --from; the text of a table goes to standard output"
    [ $# -gt 0 ] || wrong_use "name a code table"
    make_ready tableshow
    large_stack
}

verb_file() {
    take_file "$1" "$longest_table" || return 2
    run_program tableshow <"$taken" >"$scratch/shown" || { say "the program tableshow failed on $1"; return 2; }
    IFS= read -r first <"$scratch/shown" || first=
    case $first in
    "layout "*) cat "$scratch/shown" ;;
    *)
        say "$(called "$1") is not well formed: $first"
        ! head -c 7 "$taken" | grep -q '^layout ' || say "it looks like the text of a table; --from makes a table of it"
        return 1
        ;;
    esac
}

make_table() {
    take_file "$from" "$longest_text" || exit 2
    run_program tablemake <"$taken" >"$scratch/made" || die "the program tablemake failed on $from"
    IFS= read -r first <"$scratch/made" 2>/dev/null || first=
    case $first in
    "table "*) size=${first#table } ;;
    *)
        say "$(called "$from") was refused: $first"
        exit 1
        ;;
    esac
    write_whole "$scratch/made" "$size" "$to"
}
