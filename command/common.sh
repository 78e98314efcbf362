# shellcheck shell=sh disable=SC2154,SC3045
# What the commands at the repository's root share. Sourced with `name`, the command, and `root`, the repository's folder.

# What clears a terminal's line where a progress line stands on it.
wipe=
say() { printf '%s%s: %s\n' "$wipe" "$name" "$*" >&2; }

die() {
    say "$@"
    exit 2
}

version() {
    sed -n 's/^#define OSKURAMOS_VERSION "\(.*\)"$/\1/p' "$root/include/oskuramos.h"
}

# ---- files
scratch=
beside=
trap '[ -z "$scratch" ] || rm -rf "$scratch"; [ -z "$beside" ] || rm -f -- "$beside"' EXIT
# What is printed by the shell itself says 2>/dev/null: it would tell of a pipe that nobody reads any more.
trap 'exit 2' HUP INT PIPE TERM

# Makes the folder `scratch`, which is removed at the end.
need_scratch() {
    [ -n "$scratch" ] || scratch=$(mktemp -d) || die "no scratch folder could be made"
}

# `taken` is a file with the bytes of FILE, which may be a pipe, or - for standard input. Of those no more than LIMIT bytes and one are taken.
# A file that can't be read is told, and the status is 2.
take_file() { # FILE LIMIT
    if [ "$1" != - ]; then
        [ -e "$1" ] || { say "there is no file $1"; return 2; }
        [ ! -d "$1" ] || { say "$1 is a folder; name a file in it"; return 2; }
        [ -r "$1" ] || { say "$1 can't be read: see who may read it (ls -l)"; return 2; }
        if [ -f "$1" ]; then
            taken=$1
            case $taken in -*) taken=./$taken ;; esac
            return 0
        fi
    fi
    need_scratch
    taken=$(mktemp "$scratch/taken.XXXXXX") || die "no scratch file could be made"
    if [ "$1" = - ]; then
        head -c "$(($2 + 1))" >"$taken"
    else
        head -c "$(($2 + 1))" <"$1" >"$taken"
    fi || { say "$1 can't be read"; return 2; }
}

# What a file is called in a message.
called() { # FILE
    if [ "$1" = - ]; then echo "standard input"; else printf '%s\n' "$1"; fi
}

size_of() { # FILE
    wc -c <"$1" | tr -d ' '
}

# The first byte of a file in hex, nothing for an empty one.
first_byte() { # FILE
    od -A n -t x1 -N 1 -- "$1" | tr -d ' \n' | tr a-f A-F
}

# Gives a new file the owner, group and mode of the file OLD that it is to replace; where there is none to keep, the usual mode.
give_mode() { # NEW [OLD]
    if [ -z "${2-}" ]; then
        chmod "$(printf '%03o' $((0666 & ~$(umask))))" "$1"
    elif ! { chown "$(stat -L -c %u:%g -- "$2")" "$1" && chmod "$(stat -L -c %a -- "$2")" "$1"; } 2>/dev/null; then
        say "owner, group and mode of $2 can't be kept; let its owner do it"
        return 1
    fi
}

# Writes the last SIZE bytes of SOURCE: to standard output where TO is -, else beside the place of the file TO, which is then moved there whole.
# What is there and isn't a file, such as /dev/null, isn't replaced but written to.
# KEEP is a file whose owner, group and mode TO is to have. What can't be written is told, and the status is 2.
write_whole() { # SOURCE SIZE TO [KEEP]
    if [ "$3" = - ]; then
        tail -c "$2" "$1"
        return
    fi
    place=$3
    [ ! -d "$place" ] || { say "$place is a folder; name a file in it"; return 2; }
    if [ -e "$place" ] && [ ! -f "$place" ]; then
        tail -c "$2" "$1" >"$place" || { say "$place can't be written"; return 2; }
        return 0
    fi
    case $place in -*) place=./$place ;; esac
    [ ! -L "$place" ] || place=$(readlink -f -- "$place")
    folder=$(dirname -- "$place")
    [ -d "$folder" ] || { say "$place can't be written: there is no folder $folder"; return 2; }
    beside=$(mktemp "$place.XXXXXX" 2>/dev/null) || { say "$place can't be written: see who may write in its folder (ls -ld)"; return 2; }
    if tail -c "$2" "$1" >"$beside" && [ "$(size_of "$beside")" -eq "$2" ] && give_mode "$beside" "${4-}" && mv -f -- "$beside" "$place"; then
        beside=
        return 0
    fi
    rm -f -- "$beside"
    beside=
    say "$place can't be written"
    return 2
}

# ---- the proved programs
# How many crates are to be proved for CRATE: itself, and those that it is built of but for the libraries that are built already.
crates_left() { # CRATE
    awk -F: -v want="$1" '
        { split($1, head, " "); uses[head[1]] = $2 }
        function add(c,    n, i, part) {
            if (!(c in uses) || (c in seen)) return
            seen[c] = 1
            print c
            n = split(uses[c], part, " ")
            for (i = 1; i <= n; i++) add(part[i])
        }
        END { add(want) }' "$root/crates.txt" | while IFS= read -r crate; do
        [ -f "$root/crates/$crate/out/rlib/stamp" ] || echo "$crate"
    done | wc -l | tr -d ' '
}

# Passes `rt run`'s output on as one line for each crate: which of how many, and about how long it will take yet.
show_progress() { # TOTAL START
    done=0
    crate=
    while IFS= read -r line; do
        case $line in
        "crate "*": modules "*)
            crate=${line#crate }
            crate=${crate%%:*}
            ;;
        "logic=proved "*)
            done=$((done + 1))
            total=$1
            [ "$done" -le "$total" ] || total=$done
            now=$(date +%s)
            left=$(((total - done) * (now - $2) / done))
            printf '%s: %s of %s proved (%s), about %s:%02d minutes left\n' "$name" "$done" "$total" "$crate" $((left / 60)) $((left % 60))
            ;;
        esac
    done
}

# The programs are for x86-64, and run with the kit's loader and C library. Found once.
loader=
find_loader() {
    [ -z "$loader" ] || return 0
    command -v rt >/dev/null || die "the Rattle kit's command rt is not in PATH; CONTRIBUTING.md, \"What you need\", says what it is"
    tools=$(dirname "$(rt doc)")/toolchain
    loader=$tools/lib/ld-linux-x86-64.so.2
    [ -e "$loader" ] || die "the kit has no loader at $loader"
}

# Proves and builds a program where it is missing or older than a source. `rt run` runs it too, on the crate's own input.
make_ready() { # CRATE
    find_loader
    program=$root/crates/$1/out/$1
    if [ -x "$program" ] && [ -z "$(cd "$root" && find crates crates.txt \( -path 'crates/*/out' ! -path 'crates/*/*/out' \) -prune -o -newer "$program" -type f -print | head -n 1)" ]; then
        return
    fi
    total=$(crates_left "$1")
    mkdir -p "$root/out"
    log=$root/out/$1.log
    printf '%s: proving and building it first, %s crates; this takes some minutes, once\n' "$name" "$total" >&2
    rm -f "$program"
    (cd "$root/crates/$1" && rt run <stdin 2>&1 >/dev/null) | tee "$log" | show_progress "$total" "$(date +%s)" >&2
    if [ ! -x "$program" ]; then
        { grep -E ': error|error\[|: not proved' "$log" || tail -n 20 "$log"; } | head -n 20 >&2
        die "it could not be built; all that was printed stands in $log"
    fi
    touch "$program"
}

# Runs a built program.
run_program() { # CRATE
    "$loader" --library-path "$tools/lib" "$root/crates/$1/out/$1"
}

# Runs a program on standard input and passes on what it prints; its first line is `answer` and a number, and the status is 1 where that isn't 0.
# `scratch` is there already: after a pipe this is a shell of its own.
answer_of() { # CRATE FILE
    if ! run_program "$1" >"$scratch/printed"; then
        say "the program $1 failed on $2; a long stream needs a stack of $stack_kb KB, and the limit here is $(ulimit -s) (ulimit -Hs)"
        return 2
    fi
    cat "$scratch/printed"
    IFS= read -r first <"$scratch/printed" || first=
    case $first in
    "answer 0 "*) return 0 ;;
    *) refused "$2" "$first" ;;
    esac
}

# A number as four bytes, the lowest first.
four_bytes() { # NUMBER
    n=$1
    for _ in 1 2 3 4; do
        # shellcheck disable=SC2059
        printf "\\$(printf %03o $((n % 256)))"
        n=$((n / 256))
    done
}

# The programs hold a long stream, its rows and what they print on the stack; a short one needs no more than is usual.
stack_kb=131072
large_stack() {
    need_scratch
    ulimit -S -s "$stack_kb" 2>/dev/null || ulimit -S -s "$(ulimit -H -s)" 2>/dev/null || :
}

# Says in words why an answer is a refusal. The status is 1. The verb has said how many bytes (`longest`) it reads.
refused() { # FILE LINE
    case $2 in
    "answer 1 "*) why="it is no TypeInfo stream: it has fewer than 32 bytes" ;;
    "answer 2 "*) why="it is no TypeInfo stream: it doesn't begin with F7 EA CD AC" ;;
    "answer 3 "*) why="it says that it has more entries than its length allows; see that it is whole" ;;
    "answer 4 "*) why="it is of the Access 2000 layout and fits no reading; see that it is a Blob, whole" ;;
    "answer 5 "*) why="it is too long: it has more than $longest bytes" ;;
    "answer 6 "* | "answer 7 "*)
        counts=${2#answer ? }
        left=${counts#* }
        why="it has ${counts%% *} controls and ${left%% *} properties, which is more than there is room for"
        ;;
    "answer 8 "*) why="the code table $table is not well formed; ./oskuramos table says where" ;;
    "answer 12 "*) why="with it a total would pass 4,294,967,295; count it in another run" ;;
    *) why="the answer is none that this command knows" ;;
    esac
    say "$1 was refused: $why"
    return 1
}
