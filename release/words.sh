# What fiocut, drive, fiocut_node and fiocut_seen answer to --help, to --version and to a wrong word,
# before the proved program is begun: its own words are its specification's, and it has no options.
# `./fiocut` reads this, and so does what `make install` puts in the place of each program. `name` is
# the program's, and `top` the folder where VERSION is.
usage_of_fiocut() {
    cat <<'TEXT'
usage: fiocut jobs < FILE.fio                        how fiocut takes a fio job file
       fiocut world < SCRIPT.world                   a run, its cuts and its checks, event by event
       fiocut live SERVERS WORKERS PATH < TEXT.live  the same by threads; it cuts once there is a file PATH
       fiocut --version                              which fiocut this is, of which sources
SERVERS is 1 to 8, WORKERS 1 to 16 of each server.
status: 0; 1 where a check found faults; 2 where something was refused
TEXT
}

usage_of_drive() {
    cat <<'TEXT'
usage: drive write RUN JOB                                 orders the writes of a job, as a harness tells it which are done
       drive tour JOB                                      the same of many runs at once, one for each tile that is begun
       drive check RUN JOB                                 checks a target by the job's state
       drive map RUN JOB [--server SERVER] [--unit BYTES]  the same, and tells what each faulty block holds
       drive ledger RUN JOB [--server SERVER]              the same by what each block has to hold behind many runs and checks
       drive ledger-lost, drive ledger-rest                that behind a run whose state was lost, and where none was since
       drive --version                                     which drive this is, of which sources
drive-target and drive-witness call it: docs/DRIVE.md says what it reads and writes.
status: 0; 1 where a check found faults; 2 where something was refused
TEXT
}

usage_of_fiocut_node() {
    cat <<'TEXT'
usage: fiocut_node server N                                   the server with this number, 0 to 7
       fiocut_node client N [mirror | renew GENERATION]       the client of so many servers, 1 to 8
       fiocut_node mirror                                     the mirror of a client
       fiocut_node --version                                  which fiocut_node this is, of which sources
fleet and fleet-server call it: docs/NODES.md says what it reads and writes.
status: 0 where its input has ended; 2 where something was refused
TEXT
}

usage_of_fiocut_seen() {
    cat <<'TEXT'
usage: fiocut_seen < SCRIPT.world    a run as `fiocut world` has it, with the bytes of its frames
       fiocut_seen --version         which fiocut_seen this is, of which sources
status: 0; 1 where a check found faults; 2 where something was refused
TEXT
}

# Says which word is wrong and how the program is called, and ends as the program would: wrong WORD WHY.
wrong() {
    echo "$name: $1: $2" >&2
    "usage_of_$name" >&2
    echo 'bad command'
    exit 2
}

# Refuses a word that is no number of this range: range WORD LEAST MOST WHAT.
range() {
    digits=${1#+}
    case $digits in '' | *[!0-9]*) wrong "$1" "$4 is a number, $2 to $3" ;; esac
    while [ "${digits#0?}" != "$digits" ]; do digits=${digits#0}; done
    [ "${#digits}" -le 4 ] && [ "$digits" -ge "$2" ] && [ "$digits" -le "$3" ] || wrong "$1" "$4 is $2 to $3"
}

# Refuses words behind so many: at_most MOST WHY WORDS.
at_most() {
    most=$1 why=$2
    shift 2
    [ $# -le "$most" ] || { shift "$most"; wrong "$1" "$why"; }
}

words_of_fiocut() {
    case $1 in
        jobs) at_most 1 'jobs takes no word: it reads the job file on standard input, as fiocut jobs < FILE.fio' "$@" ;;
        world) at_most 1 'world takes no word: it reads the script on standard input, as fiocut world < SCRIPT.world' "$@" ;;
        live)
            [ $# -ge 4 ] || wrong live 'it wants SERVERS, WORKERS and PATH'
            range "$2" 1 8 SERVERS
            range "$3" 1 16 WORKERS
            at_most 4 'nothing stands behind PATH: the text is read on standard input' "$@"
            ;;
        *) wrong "$1" 'there is no such command' ;;
    esac
}

words_of_drive() {
    case $1 in
        write | check) at_most 3 'nothing stands behind JOB' "$@" ;;
        map) ;;
        *) wrong "$1" 'there is no such command' ;;
    esac
    [ $# -ge 3 ] || wrong "$1" 'it wants RUN and JOB'
    range "$3" 0 15 JOB
}

words_of_fiocut_node() {
    case $1 in
        mirror) at_most 1 'nothing stands behind mirror' "$@" ;;
        server | client)
            [ $# -ge 2 ] || wrong "$1" 'it wants a number'
            if [ "$1" = server ]; then range "$2" 0 7 N; else range "$2" 1 8 N; fi
            ;;
        *) wrong "$1" 'there is no such command' ;;
    esac
}

words_of_fiocut_seen() { wrong "$1" 'it takes no word: it reads the script on standard input'; }

# What a file of provenance tells by a word: told FILE WORD.
told() { sed -n "s/^$2 //p" "$1" 2>/dev/null; }

# The SHA-256 of a file, or of standard input.
sum_of() { sha256sum ${1+"$1"} 2>/dev/null | cut -d ' ' -f 1; }

# Whether a program is the one of which a file of provenance tells: is_told PROGRAM FILE.
is_told() { [ -x "$1" ] && [ -r "$2" ] && [ "$(told "$2" program)" = "$(sum_of "$1")" ]; }

# Says which program it is, of which commit, and who proved it: say_proved PROGRAM FILE.
say_proved() {
    echo "program $1"
    echo "commit $(told "$2" commit)"
    echo "proved: $(told "$2" made)"
}

# Answers --help, --version and wrong words. `say_version` says what --version does.
answer_words() {
    case $#:${1-} in
        0:)
            [ "$name" = fiocut_seen ] || { "usage_of_$name" >&2; echo 'bad command'; exit 2; }
            return
            ;;
        1:-h | 1:--help)
            "usage_of_$name"
            exit 0
            ;;
        1:--version)
            echo "$name $(cat "$top/VERSION")"
            say_version
            exit 0
            ;;
    esac
    "words_of_$name" "$@"
}
