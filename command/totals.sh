# shellcheck shell=sh disable=SC2154,SC2034,SC3045
# ./oskuramos totals: one summary of many Blobs.
longest=16777216
longest_table=65536
most=4294967295
controls=$most
properties=$most

# The answers, control types and values that are counted, in the order of the record's numbers.
answer_words='0 read
4 fits no reading
5 too long
6 too many controls
7 too many properties
8 bad code table'
type_words='Label Rectangle Line Image CommandButton OptionButton CheckBox OptionGroup BoundObjectFrame TextBox ListBox ComboBox SubForm
ObjectFrame PageBreak CustomControl ToggleButton TabControl Page Detail PageHeader PageFooter GroupHeader GroupFooter FormHeader FormFooter
ReportHeader ReportFooter SubReport EmptyCell'
mark_words='bool notdefault short long double guid text binary loose'

verb_usage() {
    cat <<'END'
./oskuramos totals [-t TABLE] [--controls N] [--properties N] BLOB..     counts what Blobs hold, all together

  -t TABLE          reads with another code table than data/access2000.codes
  --controls N      refuses a Blob with more controls than N, with 6
  --properties N    refuses a Blob with more properties than N, with 7; without these two there is room for all

Printed are: how many Blobs had which answer, and of those that were read how many controls of each type, how many properties whose code
the table lacks (unmapped) and others (mapped), how many values of each kind; the names of the Blobs that were refused, by the answer; and
the codes that the table lacks, by the scope (as ./oskuramos table shows them) and how often each was met: what the code desk may learn next.
A bar shows a number against the largest of its table. `other types` are those that have no name.
Each Blob is counted by a proved program, which passes a record of the numbers on; no number passes 4,294,967,295, and a Blob with which one
would is told and not counted (12). The table of the numbers, the bars and the list of codes are made of it, and of the lines of
./oskuramos list, by this command; that is plain code. A Blob has at most 16,777,216 bytes; of one that is too large for
./oskuramos list the codes are not in their list, which is told.
Exit status: 0 all read; 1 a Blob was refused; 2 a file couldn't be read.

    ./oskuramos totals examples/*.blob
    ./oskuramos totals --controls 8 examples/*.blob
END
}

# `N` is a number of rows.
rows_of() { # OPTION N
    case ${2-} in
    '' | *[!0-9]* | 0?* | ???????????*) wrong_use "$1 wants a number of rows after it, up to $most" ;;
    esac
    [ "$2" -le "$most" ] || wrong_use "$1 wants a number of rows after it, up to $most"
}

verb_option() {
    case $1 in
    -t)
        used=2
        table=${2-}
        ;;
    --controls)
        [ "$left" -ge 2 ] || wrong_use "--controls wants a number of rows after it"
        rows_of "$@"
        used=2
        controls=$2
        ;;
    --properties)
        [ "$left" -ge 2 ] || wrong_use "--properties wants a number of rows after it"
        rows_of "$@"
        used=2
        properties=$2
        ;;
    esac
}

verb_ready() {
    [ $# -gt 0 ] || wrong_use "name a Blob"
    for file in "$@"; do
        [ "$table" != - ] || [ "$file" != - ] || wrong_use "standard input can't be both the code table and a Blob"
    done
    take_file "$table" "$longest_table" || exit 2
    table_file=$taken
    table_size=$(size_of "$table_file")
    [ "$table_size" -le "$longest_table" ] || die "$table is no code table: it has more than $longest_table bytes"
    make_ready totalling
    make_ready bloblist
    large_stack
    layout=$(first_byte "$table_file")
    headers=$(header_codes)
    unmapped=0
    record=$scratch/record
    head -c 192 /dev/zero >"$record"
    { four_bytes "$controls" && four_bytes "$properties"; } >"$scratch/rooms"
    four_bytes "$table_size" >"$scratch/size"
    : >"$scratch/refused"
    : >"$scratch/codes"
}

# The header codes of the code table, as numbers.
header_codes() {
    od -A n -v -t u1 -N 12 -- "$table_file" | awk '{ for (i = 1; i <= NF; i++) b[n++] = $i } END { for (i = 0; i < b[1] && i < 4; i++) print b[4 + 2 * i] + 256 * b[5 + 2 * i] }' | tr '\n' ' '
}

# The numbers of the record, one each line.
record_numbers() {
    od -A n -v -t u4 --endian=little -- "$record" | tr -s ' ' '\n' | sed '/^$/d'
}

# Nothing is printed before the end.
verb_heading() { :; }
at_end=yes

verb_file() { # FILE
    take_file "$1" "$longest" || return 2
    if ! cat -- "$scratch/rooms" "$record" "$scratch/size" "$table_file" "$taken" | run_program totalling >"$scratch/said"; then
        say "the program totalling failed on $1; it needs a stack of $stack_kb KB, and the limit here is $(ulimit -s) (ulimit -Hs)"
        return 2
    fi
    IFS= read -r first <"$scratch/said" || first=
    [ "$(size_of "$scratch/said")" -eq $((${#first} + 1 + 192)) ] || { say "the program totalling said nothing of $1"; return 2; }
    tail -c 192 "$scratch/said" >"$record"
    case $first in
    "answer 0 "*) note_codes "$1" ;;
    *)
        given=${first#answer }
        printf '%s %s\n' "${given%% *}" "$(called "$1")" >>"$scratch/refused"
        refused "$(called "$1")" "$first"
        ;;
    esac
}

# Notes the codes of a Blob that the table lacks, where there are any: a line with the scope, the type's name and the code for each.
note_codes() { # FILE
    before=$unmapped
    unmapped=$(record_numbers | sed -n 38p)
    [ "$unmapped" -gt "$before" ] || return 0
    if [ "$(size_of "$taken")" -gt 4194304 ] || ! cat -- "$scratch/size" "$table_file" "$taken" | run_program bloblist >"$scratch/listed" || ! grep -q '^answer 0 ' "$scratch/listed"; then
        say "$(called "$1") is counted, but it is too large for ./oskuramos list, so its codes aren't in the list of codes"
        return 0
    fi
    object=form more=6144
    [ "$(od -A n -t x1 -j 8 -N 1 -- "$taken" | tr -d ' ')" != 97 ] || object=report more=6400
    awk -v object="$object" -v more="$more" -v headers="$headers" '
        function number(hex,    i, n) {
            for (i = 1; i <= length(hex); i++) n = 16 * n + index("0123456789ABCDEF", substr(hex, i, 1)) - 1
            return n
        }
        # a header code is shown with 1800 or 1900 joined to it
        function scope(hex,    n, i, h, k) {
            n = number(hex)
            k = split(headers, h, " ")
            for (i = 1; i <= k; i++) if (joined(h[i], more) == n) n = h[i]
            return sprintf("entry %04X", n)
        }
        function joined(a, b,    n, place) {
            for (place = 1; place <= 32768; place *= 2) if (int(a / place) % 2 || int(b / place) % 2) n += place
            return n
        }
        $1 == "C" { for (i = $6; i < $6 + $7; i++) { of[i] = scope($3); type[i] = $4 } }
        $1 == "P" && number($3) >= 32768 {
            if ($2 in of) print "2", of[$2], type[$2], substr($3, 3)
            else print (object == "form" ? 0 : 1), object, "-", "-", substr($3, 3)
        }' "$scratch/listed" >>"$scratch/codes"
}

# ---- the tables
# Lines `number words` as a table: the words, the number, and a bar against the largest number. Lines with 0 are left out where ONLY is given.
with_bars() { # HEADING [ONLY]
    awk -v heading="$1" -v only="${2-}" '
        { n[NR] = $1; sub(/^[^ ]* /, ""); words[NR] = $0; sum += n[NR]; if (n[NR] > most) most = n[NR] }
        END {
            printf "%-24s %12.0f\n", heading, sum
            for (i = 1; i <= NR; i++) {
                if (only && n[i] == 0) continue
                bar = ""
                size = most ? int((40 * n[i] + most - 1) / most) : 0
                for (j = 0; j < size; j++) bar = bar "#"
                printf "  %-22s %12.0f%s\n", words[i], n[i], bar == "" ? "" : "  " bar
            }
        }'
}

# The numbers from one place of the record to another, each with its words.
numbered() { # FIRST LAST WORDS
    record_numbers | sed -n "$1,$2p" >"$scratch/numbers"
    printf '%s\n' "$3" | paste -d ' ' "$scratch/numbers" -
}

verb_end() {
    numbered 1 6 "$answer_words" | with_bars "files by answer"
    numbered 7 37 "$(printf '%s\n' "$type_words" | tr ' ' '\n'; echo "other types")" | with_bars "controls by type" only
    numbered 38 39 "$(printf 'unmapped\nmapped')" | with_bars "properties"
    numbered 40 48 "$(printf '%s\n' "$mark_words" | tr ' ' '\n')" | with_bars "values by kind" only
    if [ -s "$scratch/refused" ]; then
        echo "refused, by answer" 2>/dev/null
        sort -s -n -k 1,1 "$scratch/refused" | sed 's/^/  /'
    fi
    if [ -s "$scratch/codes" ]; then
        echo "codes that the table lacks, by scope" 2>/dev/null
        LC_ALL=C sort "$scratch/codes" | uniq -c | awk '{ printf "  %-10s %-18s %s %8d\n", ($2 == 2 ? $3 " " $4 : $3), $5, $6, $1 }'
    fi
}
