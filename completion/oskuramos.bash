# shellcheck shell=bash
# Completion of ./oskuramos in bash: `. completion/oskuramos.bash`, or by `make install` where bash-completion looks for it.
# Verbs and options are what --help prints at that moment, so no list of them stands here. Everywhere else files are offered.

# The verbs, as the usage lists them.
_oskuramos_verbs() { # COMMAND
    "$1" --help 2> /dev/null | sed -n 's/^  \([a-z]*\) .*/\1/p' | uniq
}

# A line for each option of a verb, with the word that it takes: those in the ways to call it, and those that begin a line after two blanks.
_oskuramos_options() { # COMMAND VERB
    "$1" "$2" --help 2> /dev/null | awk -v begin="./oskuramos $2 " '
        (index($0, begin) == 1 && (NR == 1 || /[^ ]  /)) || /^  -/ {
            sub(/^  /, "")
            sub(/   *.*/, "")
            gsub(/[][]/, " ")
            for (i = 1; i <= NF; i++) if ($i ~ /^--?[a-z]/) print $i, (i < NF ? $(i + 1) : "")
        }'
}

# What may stand after an option, where the help has words in small letters or digits for it, such as 2000|later.
_oskuramos_taken() { # COMMAND VERB OPTION
    _oskuramos_options "$1" "$2" | awk -v option="$3" '
        $1 == option { n = split($2, word, "|"); for (i = 1; i <= n; i++) if (word[i] ~ /^[a-z0-9]+$/) print word[i] }'
}

_oskuramos() {
    local command=${COMP_WORDS[0]/#\~/$HOME} verb=${COMP_WORDS[1]} word=${COMP_WORDS[COMP_CWORD]} words i
    command=${command//\\/}
    COMPREPLY=()
    for ((i = 2; i < COMP_CWORD; i++)); do
        [ "${COMP_WORDS[i]}" != -- ] || return
    done
    if [ "$COMP_CWORD" -eq 1 ]; then
        words="$(_oskuramos_verbs "$command") --help --version"
    elif [[ $word == -* ]]; then
        words="$(_oskuramos_options "$command" "$verb" | sed 's/ .*//') --help"
    else
        words=$(_oskuramos_taken "$command" "$verb" "${COMP_WORDS[COMP_CWORD - 1]}")
    fi
    mapfile -t COMPREPLY < <(compgen -W "$words" -- "$word" | sort -u)
}

complete -o bashdefault -o default -F _oskuramos oskuramos
