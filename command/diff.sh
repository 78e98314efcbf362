# shellcheck shell=sh disable=SC2154,SC2034,SC3013,SC3045
# ./oskuramos diff: which panels come out otherwise under a newer code table.
longest=16777216
longest_listed=4194304
longest_table=65100
form=text
page=
anyway=

verb_usage() {
    cat <<'END'
./oskuramos diff [OPTIONS] OLDER NEWER BLOB..    says what a newer code table changes: which forms come out otherwise, in which properties

  --csv        prints a record for each property that differs, as comma-separated text, for a spreadsheet
  --quiet      prints nothing; the exit status tells
  --html OUT   writes a page too, for whoever signs: the tables, the verdict, and a picture of each panel that differs. It opens from disk and prints
  --anyway     where NEWER is no successor of OLDER, lists in which rows the two readings differ all the same

First comes what NEWER has learnt, and whether it is a successor: whether it has the layout byte, the header codes and every row of OLDER.
If so, a form can differ only in properties whose code OLDER lacks and NEWER has (demand 3). Then for each form that differs each such
property: the control's name and type, the property's name, what OLDER shows (the raw code with its bytes) and what NEWER shows. Forms
that don't differ are counted. A Blob of the later layout (Access 2002 and on) never differs: no code table is asked there.
Where NEWER isn't a successor (a row was corrected or taken back), it says which row it is, and reads no form: demand 3 doesn't speak of such
tables. --anyway then compares the two listings row by row, the rows of controls and those of properties, with every value whole.
Tell the spreadsheet that the text of --csv is UTF-8 and all columns are text: it would else take a value such as =[Volt]*2 for a formula of its
own, and the type 0098 for the number 98. A file's name is printed on one line, with a line break in it as \u000A; --csv has it as it is.
Which properties differ comes from a proved program, and so do the texts of the tables and the listings. Plain code, not proved, are the
words, the comma-separated text, the page with its pictures, and the comparison of --anyway.
A Blob has at most 16,777,216 bytes, 16,384 controls and 262,144 properties, of which 131,072 differ; for a picture, and with --anyway, at
most 4,194,304 bytes and 33,554,432 bytes of comma-separated text. One that is refused is told and doesn't stop the others. Needs python3.
Exit status: 0 no form differs; 1 some do; 2 something couldn't be read or was refused.

    ./oskuramos diff examples/auditor/older.codes examples/auditor/newer.codes examples/auditor/*.blob
    ./oskuramos diff --html page.html older.codes newer.codes panels/*.blob
    ./oskuramos diff --quiet older.codes newer.codes panels/*.blob && echo "nothing to sign anew"
END
}

verb_option() {
    case $1 in
    --csv | --quiet)
        used=1
        [ "$form" = text ] || [ "$form" = "${1#--}" ] || wrong_use "--csv and --quiet don't go together"
        form=${1#--}
        ;;
    --anyway)
        used=1
        anyway=yes
        ;;
    --html)
        used=2
        page=${2-}
        case $page in '' | -) wrong_use "--html wants a file after it" ;; esac
        ;;
    esac
}

# `taken` is a code table, and $scratch/NAME.text its text. One that isn't well formed ends the command.
take_table() { # FILE NAME
    take_file "$1" "$longest_table" || exit 2
    run_program tableshow <"$taken" >"$scratch/$2.text" || die "the program tableshow failed on $1"
    IFS= read -r first <"$scratch/$2.text" || first=
    case $first in
    "layout "*) ;;
    *) die "$(called "$1") is not well formed: $first" ;;
    esac
    { four_bytes "$(size_of "$taken")" && cat -- "$taken"; } >"$scratch/$2"
}

# Whether the page would be written over a file that is read.
is_read() { # FILE
    [ -n "$page" ] && [ "$1" != - ] && [ -f "$page" ] && [ "$page" -ef "$1" ]
}

verb_ready() { # OLDER NEWER BLOB..
    [ $# -gt 2 ] || wrong_use "name the older code table, the newer one, and a Blob"
    command -v python3 >/dev/null || die "python3 is not in PATH; this verb needs it for its words and its page"
    for file in "$@"; do
        ! is_read "$file" || wrong_use "--html $page is read too, as $file; name another file"
    done
    for program in tableshow difflist bloblist csvout; do
        make_ready "$program"
    done
    large_stack
    take_table "$1" older
    older_file=$taken
    take_table "$2" newer
    newer_file=$taken
    older=$1
    newer=$2
    shift 2
    : >"$scratch/forms"
    judge_tables
    [ -z "$anyway" ] || longest=$longest_listed
    at_end=yes
    each_file "$@"
}

# With no Blob the program says whether the newer table is a successor. If it isn't, no form is read without --anyway.
judge_tables() {
    cat "$scratch/older" "$scratch/newer" | run_program difflist >"$scratch/successor" || die "the program difflist failed on the tables"
    IFS= read -r first <"$scratch/successor" || first=
    case $first in
    "answer 0 "*) anyway= ;;
    "answer 19 "*)
        [ -z "$anyway" ] || return 0
        [ "$form" != text ] || compose || :
        say "$(called "$newer") is no successor of $(called "$older"), so no form was read${page:+ and no page written}; --anyway compares the listings"
        exit 2
        ;;
    *) die "the tables were refused: $first" ;;
    esac
}

# The lines have the names.
verb_heading() { :; }

# Keeps what PROGRAM says of the Blob under the tables of HEAD, for the words. The status is 2 where it fails.
keep() { # PROGRAM NAME HEAD..
    program=$1
    kept=$scratch/$2.$number
    shift 2
    cat -- "$@" "$taken" | run_program "$program" >"$kept" && return 0
    say "the program $program failed on $(called "$file"); a long stream needs a stack of $stack_kb KB, and the limit here is $(ulimit -s) (ulimit -Hs)"
    return 2
}

# A form that was read: its number and bytes.
keep_form() {
    printf %s "$taken" >"$scratch/taken.$number"
    echo "$number" >>"$scratch/forms"
}

# What is said of a file is noted too, for the page.
noted=
say() {
    printf '%s%s: %s\n' "$wipe" "$name" "$*" >&2
    [ -z "$noted" ] || printf '%s\n' "$*" >>"$noted"
}

verb_file() { # FILE
    went=0
    printf %s "$1" >"$scratch/name.$number"
    noted=$scratch/why.$number
    : >"$noted"
    compare_form "$1" || went=$?
    noted=
    return "$went"
}

compare_form() { # FILE
    take_file "$1" "$longest" || return 2
    if [ -n "$anyway" ]; then
        for one in older newer; do
            keep bloblist "$one.list" "$scratch/$one" && keep csvout "$one.csv" "$scratch/$one" || return
            IFS= read -r first <"$scratch/$one.list.$number" || first=
            case $first in "answer 0 "*) ;; *) refused "$(called "$1")" "$first" || return 2 ;; esac
            IFS= read -r first <"$scratch/$one.csv.$number" || first=
            case $first in
            "answer 0 "*) ;;
            *)
                say "$(called "$1") was refused: its values have more text than can be compared"
                return 2
                ;;
            esac
        done
        keep_form
        return 0
    fi
    keep difflist differ "$scratch/older" "$scratch/newer" || return
    { IFS= read -r first && IFS= read -r second; } <"$scratch/differ.$number" || second=$first
    case $first$second in
    "answer 0 0 "*"answer 0 "*) ;;
    "answer 0 "*"answer 0 "*)
        [ -z "$page" ] || { keep bloblist newer.list "$scratch/newer" && keep csvout newer.csv "$scratch/newer"; } || return
        ;;
    "answer 6 "*)
        differ=${first#answer 6 }
        say "$(called "$1") was refused: ${differ%% *} of its properties differ, which is more than there is room for"
        return 2
        ;;
    "answer 0 "*) refused "$(called "$1")" "$second" || return 2 ;;
    *) refused "$(called "$1")" "$first" || return 2 ;;
    esac
    keep_form
}

# Says it all in words, from what was kept. The status is 0 where no form differs, 10 where some do.
compose() {
    python3 "$root/command/diff.py" "$root" "$scratch" "$form" "$anyway" "${page:+$scratch/page}" "$older" "$older_file" "$newer" "$newer_file" "${number:-0}"
}

verb_end() {
    composed=0
    compose || composed=$?
    case $composed in
    0) ;;
    10) [ "$worst" -gt 1 ] || worst=1 ;;
    *) die "the words couldn't be made" ;;
    esac
    [ -z "$page" ] || write_whole "$scratch/page" "$(size_of "$scratch/page")" "$page" || worst=2
}
