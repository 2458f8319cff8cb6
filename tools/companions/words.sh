# What the scripts `mpiwait' have in common: of the repository and of a release.
# They have the function `fail', and the variable `top' for their folder.
# shellcheck shell=bash disable=SC2154

# A sentence about words that can't be right, seen at once: before anything is built, read or asked.
mistake_in() {
    local word option='' see='mpiwait --help lists all words'
    case ${1-} in
    '') echo "it needs a command or a folder; $see" && return ;;
    check | judge) ;;
    lint | close | -h | --help | -V | --version) return ;;
    -*) echo "there is no option \`$1'; $see" && return ;;
    *)
        [[ $# == 1 && -d $1 ]] || echo "there is no command or folder \`$1'; $see"
        return
        ;;
    esac
    for word in "${@:2}"; do
        [[ $word != -- ]] || return 0
        [[ $word != --eager=* ]] || option=--eager word=${word#*=}
        if [[ $option == --eager ]] && ! is_number_of_bytes "$word"; then
            echo "--eager takes a number of bytes from 0 to 2147483647, and not \`$word'" && return
        fi
        option=$word
    done
}

# The help of all commands.
show_commands() {
    cat -- "$top/tools/texts/commands" || fail "the help can't be shown"
    exit 0
}

# As the program reads one: a plus and zeros may come before it.
is_number_of_bytes() {
    [[ $1 =~ ^\+?0*([0-9]+)$ && ${#BASH_REMATCH[1]} -le 10 ]] && ((10#${BASH_REMATCH[1]} <= 2147483647))
}
