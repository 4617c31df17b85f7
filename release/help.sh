# What each script of a shell answers alike: --help, by the text at its front, and --version, as its
# first word. A script reads this before anything else: . "$(dirname -- "$(readlink -f -- "$0")")/../release/help.sh"
say_front() { printf '%s: ' "$(basename -- "$0")" && sed -n '1d;/^#/!q;s/^#[ ]\{0,1\}//p' "$(readlink -f -- "$0")"; }

# Says which word is wrong and how the script is called, and ends it: wrong_word WORD WHY.
wrong_word() {
    echo "$(basename -- "$0"): $1: $2" >&2
    echo >&2
    say_front >&2
    exit 2
}

case ${1-} in
    -h | --help)
        say_front
        exit 0
        ;;
    --version)
        echo "$(basename -- "$0") of fiocut $(cat "$(dirname -- "$(readlink -f -- "$0")")/../VERSION"), not proved"
        exit 0
        ;;
esac
