# shellcheck shell=sh disable=SC2154,SC2034,SC3013,SC3045
# ./oskuramos rewrite: Access 2000 Blobs in their shortest spelling.
longest=16777216
to=
in_place=
only_check=

verb_usage() {
    cat <<'END'
./oskuramos rewrite [-t TABLE] BLOB -o OUT          writes an Access 2000 Blob in its shortest spelling, for an archive
./oskuramos rewrite [-t TABLE] --in-place BLOB..    rewrites each Blob where it stands
./oskuramos rewrite [-t TABLE] --check BLOB..       writes nothing, and tells which Blobs are in that spelling already

  -o OUT        the file to write; - is standard output. It may not be the Blob itself, also not by a link or another name
  --in-place    a Blob that isn't short is written beside its place and moved there, with its owner, group and mode; others aren't touched
  -t TABLE      takes the layout byte of another code table than data/access2000.codes

A length up to 254 may be written in one byte or in two after FF, and a list of one entry may begin with FE or with FF 01 00, so Blobs that
read alike may differ in bytes. The shortest spelling always has the shorter of the two, and all else is kept, what isn't reported too.
It is proved that a rewritten Blob shows the same rows but for the places of values and names, that it is never longer, that rewriting it
again changes nothing, and that no Blob with the same contents is shorter (crates/claims/specs/Rewriting.antt).
But Blobs with the same rows need not have one spelling: an entry without a list (98 00 FD) and one with an empty list (98 00 FF 00 00)
show the same row, and both stay as they are.
The later layout (Access 2002 and on) has no such choice: its lengths and trailers are fixed in size, and what may differ are bytes that
are skipped. So a Blob that doesn't begin with the layout byte, the first byte of the code table, is refused. The library's `rewrite` takes
any first byte; the command doesn't, since a later Blob might by chance be taken for one of Access 2000.

--in-place and --check print a line for each Blob: `short` (it is in that spelling), `long` (it isn't) or `rewritten` (it wasn't, and now is),
how many bytes it had, how many it has in that spelling, its name.
A Blob has at most 16,777,216 bytes. Of several Blobs one that is refused doesn't stop the others.
Exit status: 0 all well; 1 a Blob was refused, or --check found one that is long; 2 a file couldn't be read or written.

    ./oskuramos rewrite examples/panel-2000.long -o panel.blob
    ./oskuramos rewrite --check examples/panel-2000.long examples/panel-2000.blob
    cp -r forms archive && ./oskuramos rewrite --in-place archive/*.blob
END
}

verb_option() {
    case $1 in
    -o)
        used=2
        to=${2-}
        ;;
    -t)
        used=2
        table=${2-}
        ;;
    --in-place)
        used=1
        in_place=yes
        ;;
    --check)
        used=1
        only_check=yes
        ;;
    esac
}

# Whether OUT is the file that is read, by whatever name. (Where both are a terminal, say, that is no harm.)
is_itself() { # FILE
    in=$1
    out=$to
    [ "$in" != - ] || in=/dev/stdin
    [ "$out" != - ] || out=/dev/stdout
    [ -f "$out" ] && [ "$out" -ef "$in" ]
}

verb_ready() { # BLOB..
    [ $# -gt 0 ] || wrong_use "name a Blob"
    case ${to:+o}${in_place:+i}${only_check:+c} in
    o | i | c) ;;
    '') wrong_use "say what to do: -o OUT writes the rewritten Blob, --in-place rewrites it where it stands, --check only tells" ;;
    *) wrong_use "-o, --in-place and --check exclude each other" ;;
    esac
    [ -z "$to" ] || [ $# -eq 1 ] || wrong_use "-o writes one file, and $# Blobs are named; --in-place rewrites many (copy them first where they are to stay)"
    for file in "$@"; do
        [ "$table" != - ] || [ "$file" != - ] || wrong_use "standard input can't be both the code table and a Blob"
        [ -z "$in_place" ] || [ "$file" != - ] || wrong_use "standard input has no place to be rewritten in; name a file, or use -o"
        [ -z "$to" ] || ! is_itself "$file" || wrong_use "-o $to is the Blob itself, $(called "$file"); name another file, or rewrite it by --in-place"
    done
    [ -z "$to" ] || ! is_itself "$table" || wrong_use "-o $to is the code table, $(called "$table"); name another file"
    take_file "$table" 0 || exit 2
    layout=$(first_byte "$taken")
    [ -n "$layout" ] || die "$table is no code table: it is empty"
    make_ready respell
    large_stack
}

# The lines have the names.
verb_heading() { :; }

# Whether a Blob may be rewritten where it stands; if not, that is told.
replaceable() { # FILE
    if [ ! -f "$1" ]; then
        say "$1 is no file that can be rewritten where it stands; use -o"
    elif [ ! -w "$1" ]; then
        say "$1 may not be written: see who may write it (ls -l)"
    elif [ "$(stat -L -c %h -- "$1")" -gt 1 ]; then
        say "$1 is one of several names of a file (hard links), and would be rewritten alone; make it a file of its own first (cp), or use -o"
    else
        return 0
    fi
    return 2
}

# `short` is a file with the Blob `taken` in its shortest spelling; `had` and `has` are the bytes of both.
rewritten() { # WHAT IT IS CALLED
    first=$(first_byte "$taken")
    if [ -z "$first" ]; then
        say "$1 was refused: it is empty"
        return 1
    elif [ "$first" != "$layout" ]; then
        say "$1 was refused: it speaks for the later layout, which has no such choice (it begins with $first, and the layout byte is $layout)"
        return 1
    fi
    run_program respell <"$taken" >"$scratch/printed" ||
        { say "the program respell failed on $1; a long Blob needs a stack of $stack_kb KB, and the limit here is $(ulimit -s) (ulimit -Hs)"; return 2; }
    IFS= read -r answer <"$scratch/printed" || answer=
    case $answer in
    "answer 0 "*) ;;
    *) refused "$1" "$answer" || return ;;
    esac
    has=${answer#answer 0 }
    has=${has%% *}
    short=$scratch/short
    tail -c "$has" "$scratch/printed" >"$short" || { say "a scratch file couldn't be written"; return 2; }
    had=$(size_of "$taken")
}

verb_file() { # FILE
    take_file "$1" "$longest" || return 2
    rewritten "$(called "$1")" || return
    if [ -n "$to" ]; then
        write_whole "$short" "$has" "$to"
        return
    fi
    word=short
    if ! cmp -s "$taken" "$short"; then
        word=long
        if [ -n "$in_place" ]; then
            replaceable "$1" || return
            write_whole "$short" "$has" "$1" "$1" || return
            word=rewritten
        fi
    fi
    printf '%s %s %s %s\n' "$word" "$had" "$has" "$1" 2>/dev/null
    [ "$word" != long ]
}
