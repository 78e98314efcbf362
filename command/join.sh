# shellcheck shell=sh disable=SC2154,SC2034
# ./oskuramos join: code tables joined into one.
longest_table=65100
to=

verb_usage() {
    cat <<'END'
./oskuramos join TABLE TABLE.. -o OUT     joins code tables: OUT holds every scope and row of each

  -o OUT    the file to write; - is standard output

The order doesn't matter, nor does it matter which are joined first: it gives the same bytes, or is refused. That is proved
(crates/claims/specs/JoiningMany.antt). Joining a table with itself gives it back. Nothing is written where joining is refused:

  a table isn't well formed                 ./oskuramos table TABLE says where it breaks which rule
  layout byte or header codes differ        each table's are shown; they aren't for the same streams
  one scope and id has two different rows   the scope and both rows are shown; the offices have to settle which one is right
  there would be more than 64 scopes        a code table holds no more; leave scopes out by ./oskuramos table and --from

A row is shown as ./oskuramos table shows it: id, target, kind of value, and the property's name after #.
Exit status: 0 joined; 1 refused; 2 a file couldn't be read or written.

    ./oskuramos join examples/north.codes examples/south.codes -o all.codes
    ./oskuramos join examples/north.codes examples/south.codes -o - | ./oskuramos table -
END
}

verb_option() {
    case $1 in
    -o)
        used=2
        to=${2-}
        ;;
    esac
}

# Joins from the left. `whole` is the table so far, `names` the tables that it was made of, and `called_whole` says so.
verb_ready() { # TABLE TABLE..
    [ -n "$to" ] || wrong_use "name the table to write: -o OUT"
    [ $# -gt 1 ] || wrong_use "name two code tables or more"
    make_ready tablejoin
    need_scratch
    take_file "$1" "$longest_table" || exit 2
    whole=$taken
    earlier=
    last=$(called "$1")
    names=$last
    called_whole=$last
    shift
    while [ $# -gt 0 ]; do
        take_file "$1" "$longest_table" || exit 2
        join_next "$(called "$1")"
        earlier=${earlier:+$earlier, }$last
        last=$(called "$1")
        names="$earlier and $last"
        called_whole="$names joined"
        shift
    done
    write_whole "$whole" "$(size_of "$whole")" "$to"
    exit
}

# What the program prints of two tables is in `printed`, and its answer in `first`.
ask() { # TABLE TABLE
    { four_bytes "$(size_of "$1")" && cat -- "$1" "$2"; } 2>/dev/null | run_program tablejoin >"$scratch/printed" || die "the program tablejoin failed"
    IFS= read -r first <"$scratch/printed" || first=
}

line_of_printed() { # NUMBER
    sed -n "$1{p;q;}" "$scratch/printed"
}

# Joins the table `taken` to `whole`, or says why it can't be and ends.
join_next() { # WHAT IT IS CALLED
    ask "$whole" "$taken"
    case $first in
    "answer 0 "*)
        size=${first#answer 0 }
        whole=$(mktemp "$scratch/joined.XXXXXX") || die "no scratch file could be made"
        tail -c "${size%% *}" "$scratch/printed" >"$whole" || die "a scratch file couldn't be written"
        return 0
        ;;
    "answer 8 "*)
        bad=$1
        ask "$whole" "$whole"
        case $first in "answer 8 "*) bad=$names ;; esac
        say "$bad is not well formed; ./oskuramos table says where"
        ;;
    "answer 16 "*)
        say "$1 can't be joined to $names: layout byte or header codes differ"
        printf '%s: %s\n' "$called_whole" "$(line_of_printed 2)" "$1" "$(line_of_printed 3)" >&2
        ;;
    "answer 17 "*)
        say "$1 can't be joined to $names: one scope and id has two different rows, which is to be settled"
        printf '%s\n' "$(line_of_printed 2)" >&2
        printf '%s: %s\n' "$called_whole" "$(line_of_printed 3)" "$1" "$(line_of_printed 4)" >&2
        ;;
    "answer 18 "*) say "$1 can't be joined to $names: there would be more than 64 scopes, and a code table holds no more" ;;
    *) die "the answer of tablejoin is none that this command knows: $first" ;;
    esac
    exit 1
}
