# shellcheck shell=sh disable=SC2154,SC2034,SC3045
# ./oskuramos show: forms for a person to look at, and as JSON for a program.
longest=4194304
longest_table=65536
longest_text=50331648
info=
only=
by_id=
json=
mode=text
plain=

verb_usage() {
    cat <<'END'
./oskuramos show [-t TABLE] [--typeinfo FILE] [--only unmapped|NAME|ID] [--json] [--no-color] BLOB..    shows forms and reports to a person

  --only WHAT        prints a line for each property that is WHAT, and nothing else: unmapped (codes that the table lacks), a property's name
                     such as ControlSource, or its id in four hex digits such as 009C. FILE: #3 TextBox "txtVolt": ControlSource = "[Volt]"
  --json             prints a JSON object for each Blob, on a line of its own; docs/FORMAT.md, section 14, says which fields it has
  --typeinfo FILE    gives the controls of one Blob the types that the form's TypeInfo has for their names, as ./oskuramos pair does
  --no-color         leaves colours out. There are none either where NO_COLOR is set and not empty, or standard output is no terminal
  -t TABLE           reads with another code table than data/access2000.codes

The first line says how the Blob was read (Access 2000 form, Access 2000 report, later tree, later scan, too short), how many controls and
properties it has, and how many codes are unmapped. Then comes the form, report or object with its properties, and each control with its own,
two blanks further in than what it stands in:
  #3 TextBox "txtVolt"           a control: number, type and name. type 1B77 is a type without a name; Control_7 has no name of its own;
                                 loose 3 bytes 6F6464 is a name that isn't UTF-16
  Left = 900                     a property: its name, or its id in four hex digits, and its value
  !! unmapped code 2F of form    a code that the table lacks: the code as stored, and the scope by the control's type (entry 006D). For a header or
                                 footer that is the first header code of the table that gives its type; ./oskuramos diff has the type as stored
Values: yes and no; set (that it is there says that a setting isn't at its default); numbers; a double as decimal, with its bits; GUIDs; a text
whole, in quotes, as UTF-8 with the escapes of JSON; bytes by their number and in hex, and .. where only the first 32 are shown.
What looks like no form, or like a part of one, is told on standard error: no control and no property, a scan, the beginning of a TypeInfo, of a
database or of text. Several Blobs get a line `file` with the name each, and a line of totals at the end (with --only and --json on
standard error); one that is refused doesn't stop the others.
The lines come from a proved program. Decimals of doubles, --only, --json, colours, warnings and totals are made by this command; that is plain code.
A Blob has at most 4,194,304 bytes, 16,384 controls and 262,144 properties, and what is shown of it 50,331,648 bytes.
Exit status: 0 all shown, whether --only found something or not; 1 a Blob, the code table or TypeInfo was refused; 2 a file couldn't be read,
or the code table has more than 65,536 bytes.

    ./oskuramos show examples/form-2000.blob
    ./oskuramos show --only unmapped examples/*.blob
    ./oskuramos show --typeinfo examples/later-scan.typeinfo examples/later-scan.blob
    ./oskuramos show --json examples/*.blob
END
}

verb_option() {
    case $1 in
    -t)
        used=2
        table=${2-}
        ;;
    --typeinfo)
        used=2
        info=${2-}
        [ "$left" -lt 2 ] || [ -n "$info" ] || wrong_use "--typeinfo wants a file after it"
        ;;
    --only)
        used=2
        only=
        [ "$left" -lt 2 ] || only=$2
        [ -n "$only" ] || wrong_use "--only wants unmapped, a property's name or an id after it"
        ;;
    --json)
        used=1
        json=yes
        ;;
    --no-color)
        used=1
        plain=yes
        ;;
    esac
}

# Sets `only` and `by_id`; a word that is no property's name is told.
look_for() {
    case $only in
    unmapped) return ;;
    [0-9A-Fa-f][0-9A-Fa-f][0-9A-Fa-f][0-9A-Fa-f])
        only=$(printf %s "$only" | tr a-f A-F)
        by_id=yes
        return
        ;;
    esac
    names=$(cut -d ' ' -f 2 "$root/data/names/text.txt" "$root/data/names/number.txt" "$root/data/names/bytes.txt")
    ! printf '%s\n' "$names" | grep -q -x -F -e "$only" || return 0
    near=$(printf '%s\n' "$names" | grep -i -x -F -e "$only" | head -n 1)
    wrong_use "there is no property $only${near:+ (it is written $near)}; --only takes unmapped, a property's name or an id of four hex digits"
}

# Standard input can be one file only.
once() { # FILE..
    [ "$table" != - ] || [ "$info" != - ] || wrong_use "standard input can't be both the code table and TypeInfo"
    for file in "$@"; do
        [ "$file" = - ] || continue
        [ "$table" != - ] || wrong_use "standard input can't be both the code table and a Blob"
        [ "$info" != - ] || wrong_use "standard input can't be both TypeInfo and a Blob"
    done
}

verb_ready() { # BLOB..
    [ $# -gt 0 ] || wrong_use "name a Blob"
    [ -z "$info" ] || [ $# -eq 1 ] || wrong_use "TypeInfo is of one form, and $# Blobs are named"
    [ -z "$only" ] || [ -z "$json" ] || wrong_use "--only and --json exclude each other"
    once "$@"
    [ -z "$json" ] || mode=json
    if [ -n "$only" ]; then
        mode=only
        at_end=yes
        look_for
    fi
    take_file "$table" "$longest_table" || exit 2
    table_file=$taken
    table_size=$(size_of "$table_file")
    [ "$table_size" -le "$longest_table" ] || die "$table is no code table: it has more than $longest_table bytes"
    info_file=/dev/null
    if [ -n "$info" ]; then
        take_file "$info" "$longest" || exit 2
        info_file=$taken
        [ "$(size_of "$info_file")" -gt 0 ] || { refused "$(called "$info")" "answer 1 "; exit 1; }
        [ "$(size_of "$info_file")" -le "$longest" ] || { refused "$(called "$info")" "answer 5 "; exit 1; }
        [ "$table_size" -gt 0 ] || { refused "$table" "answer 8 "; exit 1; }
    fi
    make_ready showform
    if [ "$mode" = json ] || [ -n "$by_id" ]; then make_ready bloblist; fi
    if [ "$mode" = json ] && [ -n "$info" ]; then make_ready pairlist; fi
    large_stack
    { four_bytes "$table_size" && cat -- "$table_file"; } >"$scratch/table"
    { cat -- "$scratch/table" && four_bytes "$(size_of "$info_file")" && cat -- "$info_file"; } >"$scratch/head"
    colour=
    [ ! -t 1 ] || [ -n "$plain" ] || [ -n "${NO_COLOR-}" ] || [ "${TERM-dumb}" = dumb ] || [ "$mode" = json ] || colour=yes
    shown=0 refusals=0 all_controls=0 all_properties=0 all_unmapped=0 all_found=0
}

# JSON has a line for each Blob, and --only the name in each of its lines.
verb_heading() { # FILE
    [ "$mode" != text ] || printf 'file %s\n' "$1" 2>/dev/null
}

# ---- what looks like no form
# What the first bytes of a file say that it is, where that is no Blob. Text is what has no control characters but tabs and line ends.
first_bytes() { # FILE
    taking="out of which the Blob has to be taken first (docs/FORMAT.md, section 1)"
    case $(od -A n -v -t x1 -N 64 -- "$1") in
    '') echo "it is empty" ;;
    ' f7 ea cd ac'*) echo "it begins as TypeInfo does, which ./oskuramos typeinfo shows" ;;
    ' 00 01 00 00 53 74 61 6e 64 61 72 64 20'*) echo "it begins as a database of Access does, $taking" ;;
    ' d0 cf 11 e0 a1 b1 1a e1'*) echo "it begins as a compound file (OLE) does, $taking" ;;
    ' ff fe'* | ' fe ff'*) echo "it begins as text does" ;;
    *' 0'[0-8bcef]* | *' 1'?* | *' 7f'*) ;;
    *) echo "it begins as text does" ;;
    esac
}

# Says where a Blob that was read looks like none, or like a part of one.
warn() { # WHAT IT IS CALLED
    because=
    case $reading in
    "Access 2000 "*) ;;
    *) because=$(first_bytes "$taken") ;;
    esac
    case $reading,$controls,$properties in
    "too short",*) because=${because:-it is too short} ;;
    "later scan",0,*) because=${because:-it is no tree, and a search for names found no control} ;;
    *,0,0) because=${because:-it has no control and no property} ;;
    esac
    if [ -n "$because" ]; then
        say "warning: $1 looks like no form: $because"
    elif [ "$reading" = "later scan" ]; then
        lost="types, and what stood before a name, are lost"
        [ -z "$info" ] || lost="what stood before a name is lost, and types are those of TypeInfo"
        say "warning: $1 may not be a whole form: it is no tree, so it was searched for names; $lost"
    fi
}

# ---- a Blob
# The object of a Blob that isn't shown.
no_object() { # FILE ANSWER WHY [CONTROLS PROPERTIES]
    file=$1 why=$3 LC_ALL=C awk -v mode=no -v answer="$2" -v controls="${4-}" -v properties="${5-}" -f "$root/command/show.awk"
}

# Says why a Blob was refused, and where it looks like none; `why` has the reason.
say_why() { # WHAT IT IS CALLED
    case $first in
    "answer 9 "*) why="what is to be shown has more than $longest_text bytes; ./oskuramos list shows less of it" ;;
    "answer 15 "*) why="it speaks for Access 2000, and so has the type of each control itself; leave --typeinfo out" ;;
    *)
        refused "$1" "$first"
        return
        ;;
    esac
    say "$1 was refused: $why"
}

# A Blob was refused, or its TypeInfo: `first` is the line with the number and counts. The status is 1.
refuse() { # FILE
    refusals=$((refusals + 1))
    case $first in
    "typeinfo "*)
        refused "$(called "$info")" "answer ${first#typeinfo }"
        [ "$mode" != json ] || no_object "$1" null "TypeInfo was refused: $why"
        return 1
        ;;
    esac
    say_why "$(called "$1")"
    because=
    case $first in "answer 4 "* | "answer 5 "*) because=$(first_bytes "$taken") ;; esac
    [ -z "$because" ] || say "warning: $(called "$1") looks like no form: $because"
    read -r _ answer controls properties _ <<END
$first
END
    case $mode,$answer in
    text,*) printf '%s\n' "$first" 2>/dev/null ;;
    json,6 | json,7) no_object "$1" "$answer" "$why" "$controls" "$properties" ;;
    json,*) no_object "$1" "${answer:-null}" "$why" ;;
    esac
    return 1
}

# The lines of the listing, for ids and kinds of properties, and codes of types; after them those with the types that TypeInfo has.
list_rows() {
    cat -- "$scratch/table" "$taken" | run_program bloblist >"$scratch/rows" || return
    [ -n "$info" ] && [ "$mode" = json ] || return 0
    { four_bytes "$((0x$(first_byte "$table_file")))" && four_bytes "$(size_of "$info_file")" && cat -- "$info_file" "$taken"; } | run_program pairlist >>"$scratch/rows"
}

failed() { # PROGRAM FILE
    [ "$mode" != json ] || no_object "$2" null "the program $1 failed"
    say "the program $1 failed on $(called "$2"); a long stream needs a stack of $stack_kb KB, and the limit here is $(ulimit -s) (ulimit -Hs)"
    return 2
}

verb_file() { # FILE
    if ! take_file "$1" "$longest"; then
        [ "$mode" != json ] || no_object "$1" null "it couldn't be read"
        return 2
    fi
    cat -- "$scratch/head" "$taken" | run_program showform >"$scratch/shown" || failed showform "$1" || return
    IFS= read -r first <"$scratch/shown" || first=
    case $first in
    *" unmapped") ;;
    *) refuse "$1" || return ;;
    esac
    count "${first#*, }"
    reading=${first%%,*}
    warn "$(called "$1")"
    : >"$scratch/rows"
    if [ "$mode" = json ] || [ -n "$by_id" ]; then list_rows || failed bloblist "$1" || return; fi
    [ "$mode" != only ] || printf '%s' "$wipe" >&2
    file=$1 count=$scratch/count LC_ALL=C awk -v mode="$mode" -v colour="$colour" -v want="$only" -v by_id="$by_id" \
        -f "$root/command/show.awk" part=rows "$scratch/rows" part=shown "$scratch/shown" || exit 2
    [ "$mode" = only ] || return 0
    read -r found <"$scratch/count"
    all_found=$((all_found + found))
}

# Adds to the totals what the first line says: C controls, P properties, U unmapped.
count() { # COUNTS
    controls=${1%% *}
    counts=${1#*, }
    properties=${counts%% *}
    counts=${counts#*, }
    shown=$((shown + 1))
    all_controls=$((all_controls + controls))
    all_properties=$((all_properties + properties))
    all_unmapped=$((all_unmapped + ${counts%% *}))
}

totals() {
    printf '%s files: %s shown, %s refused, %s unread' "$number" "$shown" "$refusals" $((number - shown - refusals))
    printf '; %s controls, %s properties, %s unmapped' "$all_controls" "$all_properties" "$all_unmapped"
    [ "$mode" != only ] || printf '; %s found' "$all_found"
    echo
}

verb_end() {
    [ "$number" -gt 1 ] || return 0
    if [ "$mode" = text ]; then totals 2>/dev/null; else totals >&2; fi
}
