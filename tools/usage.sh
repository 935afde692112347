# The command line of a script in bash, as the comment at the head of the script tells it. The comment says
# what the script does, its usage and all else, with a line between them that has no text.

# Prints the usage of the script.
print_usage() {
    sed -n '/^# usage: /,/^#$/{/^# /s/^# //p}' "$0"
}

# Prints the usage, and what the script does.
print_help() {
    print_usage
    echo
    sed -n '2,/^[^#]/{/^#/s/^# \?//p}' "$0" | sed '/^usage: /,/^$/d'
}

# Ends the script where its words are wrong.
refuse_words() {
    print_usage >&2
    exit 2
}

# Answers --help, and ends the script unless it has so many words and none of them is an option.
take_words() { # COUNT WORD..
    local count=$1 word
    shift
    case ${1:-} in
        -h | --help)
            print_help
            exit 0
            ;;
    esac
    [ $# = "$count" ] || refuse_words
    for word in "$@"; do
        [[ $word != -* ]] || refuse_words
    done
}
