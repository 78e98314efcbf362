# shellcheck shell=sh disable=SC2154,SC2034,SC3045
# ./oskuramos check: which Blobs keep the rules of panels.
longest=16777216
longest_table=65536

verb_usage() {
    cat <<'END'
./oskuramos check [-t TABLE] BLOB..     says of each Blob whether it keeps the rules of panels

  -t TABLE    reads with another code table than data/access2000.codes

Each Blob has a line: `yes` and its name, or `no`, its name, the first control that breaks a rule (its number as ./oskuramos list counts,
and its name), the first rule that it breaks, and what broke it. The rules:
  1  every type code has a type name
  2  every name is UTF-16: no control is numbered or has a name in other bytes
  3  no name is equal, byte for byte, to an earlier control's
  4  each TextBox or ComboBox has exactly one property 001B (ControlSource), and that is text of at least one byte
  5  every Left, Top, Width or Height is a short, and no Width or Height is negative
  6  no control stands deeper than level 7
Answer, control and rule come from a proved program. The words are plain code, and what broke the rule is taken from the lines of
./oskuramos list and ./oskuramos show; of a Blob that is too large for these that is left out. Letters of a name that aren't printing ASCII are shown as \u and
four digits of hex, of a name that isn't UTF-16 as a backslash and two.
A Blob has at most 16,777,216 bytes, 16,384 controls and 262,144 properties. One that is refused doesn't stop the others, and has no line.
Exit status: 0 all yes; 1 a Blob breaks a rule; 2 a Blob or the code table was refused, or a file couldn't be read.

    ./oskuramos check examples/panel-2000.blob examples/form-2000.blob
    ./oskuramos check panels/*.blob || exit
END
}

verb_option() {
    case $1 in
    -t)
        used=2
        table=${2-}
        ;;
    esac
}

verb_ready() {
    [ $# -gt 0 ] || wrong_use "name a Blob"
    for file in "$@"; do
        [ "$table" != - ] || [ "$file" != - ] || wrong_use "standard input can't be both the code table and a Blob"
    done
    take_file "$table" "$longest_table" || exit 2
    table_file=$taken
    table_size=$(size_of "$table_file")
    [ "$table_size" -le "$longest_table" ] || die "$table is no code table: it has more than $longest_table bytes"
    make_ready panelsay
    make_ready bloblist
    make_ready showform
    large_stack
    { four_bytes "$table_size" && cat -- "$table_file"; } >"$scratch/head"
}

# The lines have the names.
verb_heading() { :; }

# The rules in words.
rule_words() { # RULE
    case $1 in
    1) echo "every type code has a type name" ;;
    2) echo "every name is UTF-16" ;;
    3) echo "no name is equal to an earlier control's" ;;
    4) echo "a TextBox or ComboBox has exactly one ControlSource (001B), and that is text of at least one byte" ;;
    5) echo "Left, Top, Width and Height are shorts, and Width and Height aren't negative" ;;
    6) echo "no control stands deeper than level 7" ;;
    esac
}

# A control's name, by the words of its row: in UTF-16, a number, or other bytes. No more than 255 letters are shown.
shown_name() { # MARK START SIZE
    if [ "$1" -eq 1 ]; then
        printf 'Control_%s' "$2"
        return
    fi
    width=$((2 - $1 / 2))
    size=$3
    [ "$size" -le $((255 * width)) ] || size=$((255 * width))
    [ "$size" -gt 0 ] || { printf -- '-'; return; }
    od -A n -v -t x1 -j "$2" -N "$size" -- "$taken" | awk -v width="$width" '
        function digit(c) { return index("0123456789abcdef", c) - 1 }
        { for (i = 1; i <= NF; i++) b[n++] = $i }
        END {
            for (i = 0; i + width <= n; i += width) {
                code = 16 * digit(substr(b[i], 1, 1)) + digit(substr(b[i], 2, 1))
                plain = code >= 32 && code <= 126 && code != 92 && (width == 1 || b[i + 1] == "00")
                printf "%s", plain ? sprintf("%c", code) : width == 1 ? "\\" toupper(b[i]) : "\\u" toupper(b[i + 1] b[i])
            }
        }'
}

# The first control with the name of control ROW, from the lines of ./oskuramos show.
same_name() { # ROW
    { cat -- "$scratch/head" && four_bytes 0 && cat -- "$taken"; } | run_program showform >"$scratch/shown" || return 0
    awk -v row="$1" '
        $1 ~ /^#/ {
            n = substr($1, 2) + 0
            name = $0
            sub(/^ *#[0-9]+ (type )?[^ ]+ /, "", name)
            if (n < row) names[n] = name
            else {
                for (i = 0; i < row; i++) if (names[i] == name) { printf "control %d has this name", i; exit }
                exit
            }
        }' "$scratch/shown"
}

# What broke a rule, from the lines of a listing.
what_broke() { # RULE ROW TYPE MARK
    case $1 in
    1)
        printf 'its type is %04X' "$3"
        return
        ;;
    2)
        if [ "$4" -eq 1 ]; then printf 'it has no name in UTF-16, and is numbered'; else printf 'its name is other bytes'; fi
        return
        ;;
    3)
        same_name "$2"
        return
        ;;
    esac
    cat -- "$scratch/head" "$taken" | run_program bloblist >"$scratch/listed" || return 0
    awk -v rule="$1" -v row="$2" '
        $1 == "C" && $2 == row { from = $6; to = $6 + $7; if (rule == 6) printf "its level is %s", $8 }
        $1 == "P" && $2 + 0 >= from + 0 && $2 + 0 < to + 0 && rule == 4 && $3 == "001B" { sources++; kind = $5; value = $6 }
        $1 == "P" && $2 + 0 >= from + 0 && $2 + 0 < to + 0 && rule == 5 && !told && $4 ~ /^(Left|Top|Width|Height)$/ {
            if ($5 != "short" || ($4 ~ /^(Width|Height)$/ && $6 + 0 < 0)) { printf "its %s is %s %s", $4, $5, $6; told = 1 }
        }
        END {
            if (rule != 4) exit
            if (sources == 1) printf "it has one that is %s", kind == "text" && value == 0 ? "empty" : kind
            else if (sources) printf "it has %d", sources
            else printf "it has none"
        }' "$scratch/listed"
}

verb_file() { # FILE
    take_file "$1" "$longest" || return 2
    answer=
    if ! cat -- "$scratch/head" "$taken" | run_program panelsay >"$scratch/said"; then
        say "the program panelsay failed on $(called "$1"); a long stream needs a stack of $stack_kb KB, and the limit here is $(ulimit -s) (ulimit -Hs)"
        return 2
    fi
    { IFS= read -r answer && read -r _ type mark start size; } <"$scratch/said" || :
    case $answer in
    "answer 0 1 "*)
        printf 'yes %s\n' "$1" 2>/dev/null
        return 0
        ;;
    "answer 0 0 "*) ;;
    *)
        refused "$(called "$1")" "$answer"
        return 2
        ;;
    esac
    rule=${answer##* }
    row=${answer#answer 0 0 }
    row=${row%% *}
    why=$(what_broke "$rule" "$row" "$type" "$mark")
    printf 'no %s: control %s %s: rule %s: %s%s\n' "$1" "$row" "$(shown_name "$mark" "$start" "$size")" "$rule" "$(rule_words "$rule")" "${why:+; $why}" 2>/dev/null
    return 1
}
