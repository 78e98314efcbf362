# shellcheck shell=sh disable=SC2154,SC2034
# ./oskuramos typeinfo: the entries of TypeInfo streams.
longest=4194304

verb_usage() {
    cat <<'END'
./oskuramos typeinfo STREAM..     lists the entries of each TypeInfo stream: the type, index and name of every control

The first line is `answer`, a number and three counts: entries, 0, 0. A line for each entry that is reported:
T: number, type, its name (- if it isn't known), index, bytes of the control's name, the name (- if it has no bytes).
A + after the bytes (3+) says that the stream ended within the name: it had so many bytes or more, and the copy lost its tail.
TypeInfo doesn't say which code page a name is of. So bytes that aren't printing ASCII, and the backslash, are a backslash and two
digits of hex: K\FCche. What is left of the line after the sixth blank is the name, blanks and all.
A stream has at most 4,194,304 bytes. Of several streams each has a line `file` with its name before its own; one that is refused
doesn't stop the others.
Exit status: 0 all listed; 1 a stream was refused; 2 a file couldn't be read.

    ./oskuramos typeinfo examples/form.typeinfo
END
}

verb_option() { :; }

verb_ready() {
    [ $# -gt 0 ] || wrong_use "name a TypeInfo stream"
    make_ready infolist
    large_stack
}

verb_file() { # FILE
    take_file "$1" "$longest" || return 2
    answer_of infolist "$1" <"$taken"
}
