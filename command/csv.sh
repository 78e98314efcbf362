# shellcheck shell=sh disable=SC2094,SC2154,SC2034,SC3013,SC3045
# ./oskuramos csv: the properties of forms as comma-separated text, for a spreadsheet.
longest=4194304
longest_table=65536
longest_text=33554432
header_size=34
to=-
named=

verb_usage() {
    cat <<'END'
./oskuramos csv [-t TABLE] [--file] BLOB.. [-o FILE]    writes the properties of forms and reports as comma-separated text, for a spreadsheet

  -o FILE     the file to write, whole or not at all; without it, or where it is -, the text is printed. It may be none of the Blobs
  --file      puts a field with the Blob's name before the five of each record, and `file` before those of the header
  -t TABLE    reads with another code table than data/access2000.codes

The text is that of RFC 4180: the header record control,type,property,word,value, then a record for each property, each with CR LF after it.
control: the control's number, from 0; type: its type code in hex; both are empty for the object's own properties.
property: its name, or its id in hex where that has no name; word: the kind of value, as ./oskuramos list says it; value: as listed, but a text
whole, as UTF-8, and bytes in hex. Tell the spreadsheet that the text is UTF-8 and all columns are text: it would else take the type 0098 for
the number 98, and the bytes 010203 for 10203. A field with a comma, a quote, CR or LF stands in quotes, and may so go over several lines.
Several Blobs make one text with one header record; only with --file do the records say from which Blob they are. The numbers of controls
begin anew with each. One that is refused is told, and doesn't stop the others; where all are, no text is written.
A Blob has at most 4,194,304 bytes, 16,384 controls and 262,144 properties, and its text 33,554,432 bytes.
It is proved that the text of a Blob reads back into the same fields (crates/claims/specs/Spreadsheet.antt). Putting the texts of several
Blobs together, and the names before them, is not proved.
Exit status: 0 all written; 1 a Blob or the code table was refused; 2 a file couldn't be read or written.

    ./oskuramos csv examples/form-2000.blob
    ./oskuramos csv --file examples/*.blob -o forms.csv
    ./oskuramos csv - <examples/form-2000.blob
END
}

verb_option() {
    case $1 in
    -o)
        used=2
        to=${2-}
        ;;
    -t)
        used=2
        table=${2-}
        ;;
    --file)
        used=1
        named=yes
        ;;
    esac
}

# Whether the text would be written over a file that is read.
is_read() { # FILE
    [ "$to" != - ] && [ "$1" != - ] && [ -f "$to" ] && [ "$to" -ef "$1" ]
}

verb_ready() { # BLOB..
    [ $# -gt 0 ] || wrong_use "name a Blob"
    [ -n "$to" ] || wrong_use "-o wants a file after it"
    for file in "$@"; do
        [ "$table" != - ] || [ "$file" != - ] || wrong_use "standard input can't be both the code table and a Blob"
        ! is_read "$file" || wrong_use "-o $to is one of the Blobs, $file; name another file"
        [ -z "$named" ] || [ "$(printf %s "$file" | tr -d '\r\n')" = "$file" ] || wrong_use "--file takes no name with a line break"
    done
    ! is_read "$table" || wrong_use "-o $to is the code table, $table; name another file"
    take_file "$table" "$longest_table" || exit 2
    table_file=$taken
    table_size=$(size_of "$table_file")
    [ "$table_size" -le "$longest_table" ] || die "$table is no code table: it has more than $longest_table bytes"
    make_ready csvout
    large_stack
    blobs=$#
    sheet=$scratch/sheet
    records=$scratch/records
}

# One text has no headings.
verb_heading() { :; }

# A name as a field.
name_field() { # NAME
    case $1 in
    *[,\"]*) printf '"%s"' "$(printf '%s\n' "$1" | sed 's/"/""/g')" ;;
    *) printf '%s' "$1" ;;
    esac
}

# Puts a field before each record of the file `records`. A line begins a record where the quotes before it are even in number.
named_records() { # FIELD
    LC_ALL=C tr -dc '"\n' <"$records" |
        field=$1 LC_ALL=C awk '{ print (odd ? "" : ENVIRON["field"] ","); odd = (odd + length($0)) % 2 }' |
        LC_ALL=C paste -d '\0' - "$records"
}

# Puts a Blob's text, the last bytes of `printed`, after those before it: the header record once, from the first.
add_text() { # FILE SIZE
    if [ ! -e "$sheet" ]; then
        { [ -z "$named" ] || printf 'file,'; } >"$sheet"
        tail -c "$2" "$scratch/printed" | head -c "$header_size" >>"$sheet"
    fi
    tail -c "$(($2 - header_size))" "$scratch/printed" >"$records" || return
    if [ -n "$named" ]; then
        named_records "$(name_field "$1")"
    else
        cat "$records"
    fi >>"$sheet"
}

add_blob() { # FILE
    take_file "$1" "$longest" || return 2
    { four_bytes "$table_size" && cat -- "$table_file" "$taken"; } | run_program csvout >"$scratch/printed" ||
        { say "the program csvout failed on $(called "$1"); it needs a stack of $stack_kb KB, and the limit here is $(ulimit -s) (ulimit -Hs)"; return 2; }
    IFS= read -r answer <"$scratch/printed" || answer=
    case $answer in
    "answer 0 "*) ;;
    "answer 13 "*)
        say "$(called "$1") was refused: its text has more than $longest_text bytes"
        return 1
        ;;
    *) refused "$(called "$1")" "$answer" || return ;;
    esac
    size=${answer#answer 0 }
    add_text "$1" "${size%% *}" || { say "a scratch file couldn't be written"; return 2; }
}

# After the last Blob the text is handed over.
verb_file() { # FILE
    went=0
    add_blob "$1" || went=$?
    if [ "$number" -eq "$blobs" ] && [ -e "$sheet" ]; then
        write_whole "$sheet" "$(size_of "$sheet")" "$to" || went=2
    fi
    return "$went"
}
