# shellcheck shell=sh
# Read by the commands of the top folder, as ./day-report: what they have in common. POSIX sh. A command is a script that finds the project's
# folder, also where it is called through a link, and reads this:
#
#     self=$(readlink -f "$0") || exit 2
#     here=${self%/*}
#     . "$here/tools/command.sh"
#
# Then it says what it is,
#
#     takes='work file' gives=report   what its program reads and writes, as messages name it
#     usage='usage: ./NAME [FILE]   (--help explains it)'
#     help() { .. }                    explains it on standard output
#     takes_option() { .. }            takes an option of its own, or answers 1; only where it has options besides --help
#     most=2 too_many='WORDS'          only where it takes a second file: what is said of a third
#
# and calls what it needs of these, in this order:
#
#     take_call "$@"                   the call is sound, and its words are in file and second
#     open_work                        standard input is what the program reads
#     check_file "$second"             a file that the program opens by itself can be read
#     build CRATE TIME                 the program of the crate is there, built of these very sources
#     take_output CRATE [WORD..]       all that it writes is in $output
#     give_output                      and on standard output
#
# Where that cannot be, they say why in one line, and end the command with a status: 1 the program could not be built, or what it gives not be
# written whole; 2 a wrong call, a file that cannot be read, or no toolchain.
# shellcheck disable=SC2034,SC2154 # second is for the command; self, here, takes, gives and usage are the command's

set -u

name=${self##*/}
target=$here/target

say() { printf '%s: %s\n' "$name" "$*" >&2; }
stop() { say "$1"; exit "${2:-2}"; } # WORDS [STATUS]

# ---- The call

most=1 too_many='one file at a time'
takes_option() { return 1; } # OPTION

take_call() { # WORD..
    file=- second='' only_files=no
    count=0
    for word; do
        case $only_files$word in
        no--) only_files=yes; continue ;;
        no-h | no--help) help; exit ;;
        no-) ;;
        no-*) takes_option "$word" || stop "$word is no option; $usage"; continue ;;
        esac
        count=$((count + 1))
        case $count in
        1) file=$word ;;
        2) second=$word ;;
        esac
    done
    [ "$count" -le "$most" ] || stop "$too_many; $usage"
    [ "$count" -ge 1 ] || only_files=no
    # Closed places are looked at first: what is opened next would take their number.
    ( : 9>&1 ) 2>/dev/null || stop 'standard output is closed' 1
}

# Whether the call names no file, so that standard input is read as it is. Behind -- a file may be called "-".
no_file() { [ "$file" = - ] && [ "$only_files" = no ]; }

check_file() { # FILE
    [ -e "$1" ] || stop "$1: no such file"
    [ ! -d "$1" ] || stop "$1: is a directory"
    [ -r "$1" ] || stop "$1: cannot be read: permission denied"
}

# Makes the file that the call names standard input.
open_input() {
    if no_file; then
        ( : 9<&0 ) 2>/dev/null || stop 'standard input is closed'
        [ ! -d /dev/stdin ] || stop 'standard input is a directory'
    else
        check_file "$file"
        exec <"$file"
    fi
}

# The same for a program.
open_work() {
    no_file || [ -e "$file" ] || [ ! -L "$file" ] || stop "$file: a link to a file that is not there"
    open_input
    # The program asks once more after an end, to tell it from a failed read.
    ! no_file || [ ! -t 0 ] || say "reading a $takes from standard input; at a terminal, Ctrl-D twice ends it"
}

# ---- The program

# shellcheck source=tools/built.sh
. "$here/tools/built.sh"

# One build at a time, whichever command asks for it: a second would only wait for the first, crate by crate. The lock is a link that names the
# process that holds it and its command, made in one step.
lock=$target/build.lock

take_lock() {
    waited=0 missing=0
    until why=$(ln -s "$$ $name" "$lock" 2>&1); do
        # Where there is none, its holder has just removed it, or none can be made; only the latter happens again and again.
        if [ -L "$lock" ]; then missing=0; else missing=$((missing + 1)); fi
        [ "$missing" -le 3 ] || stop "no lock can be made: $why" 1
        held=$(readlink "$lock" 2>/dev/null) || held=
        holder=${held%% *} other=${held#* }
        if [ -n "$holder" ] && ! kill -0 "$holder" 2>/dev/null && [ ! -d "/proc/$holder" ]; then
            # Several may see that the holder is gone. The one that makes the second link looks again, and removes the
            # lock if it is still that holder's: nobody else can, so it is no new one.
            if ln -s "$$" "$lock.$holder" 2>/dev/null; then
                [ "$(readlink "$lock" 2>/dev/null)" != "$held" ] || rm -f "$lock"
                rm -f "$lock.$holder"
                continue
            fi
        fi
        [ -n "$other" ] || other=$name
        case $waited in
        3)
            if [ "$other" = "$name" ]; then who="another $name"; else who=$other; fi
            say "waiting for $who, process ${holder:-unknown}, which is building the program"
            ;;
        3600) stop "waited an hour for process ${holder:-unknown}; if it is no $other, remove $lock" 1 ;;
        esac
        waited=$((waited + 1))
        sleep 1
    done
}

# The program is there and is built of these very sources where a note of the gate or of an earlier call says so, or else where rt does.
build() { # CRATE TIME that it takes from nothing
    command -v rt >/dev/null || stop 'the Rattle toolchain is missing: there is no command rt'
    program=$(program_of "$1")
    mkdir -p "$target" 2>/dev/null
    if [ -w "$target" ]; then
        take_lock
        trap 'rm -f "$lock"' EXIT
        trap 'exit 1' HUP INT TERM
        is_built "$1" || prove "$1" "$2"
        rm -f "$lock"
        trap - EXIT HUP INT TERM
    else
        [ -x "$program" ] || stop "the program is not built, and $target, where its builds are noted, cannot be written" 1
        say "$target cannot be written: the program is run as it is, and not checked against the sources"
    fi
}

prove() { # CRATE TIME
    # The crates that the program is proved from, itself included.
    crates=$(crates_of "$1") || stop 'crates.txt cannot be read' 1
    count=$(printf '%s\n' "$crates" | wc -l | tr -d ' ')
    sources=$(sources_sum "$1")

    # For the words alone, "not built yet" or "have changed"; rt itself judges what is to be proved.
    if [ -x "$program" ] && { [ -f "$target/built/$1" ] || [ -f "$program.stamp" ]; }; then
        news='the sources have changed since the program was built: proving what has changed'
    else
        say "the program is not built yet: proving its $count crates and building it; from nothing this takes $2, and it happens once"
        news=
    fi

    log=$target/$name.log
    rm -f "$log" 2>/dev/null
    ( : >"$log" ) 2>/dev/null || stop "$log cannot be written, and what rt says is kept there" 1
    # Each crate in its own folder: its library, or the program, which rt starts once it is built. It gets nothing to read, and what it then writes
    # is not wanted. Nothing is said of a crate that has not changed.
    {
        for crate in $crates; do
            began=$(date +%s)
            if [ "$crate" = "$1" ]; then
                (cd "$here/crates/$crate" && LC_ALL=C && export LC_ALL && exec rt run) </dev/null 2>&1 >/dev/null
            else
                (cd "$here/crates/$crate" && LC_ALL=C && export LC_ALL && exec rt lib) </dev/null 2>&1
            fi
            ended=$?
            printf '\nrt ended with status %s after %s s in crates/%s\n' "$ended" "$(($(date +%s) - began))" "$crate"
            [ "$ended" -eq 0 ] || break
        done
    } | {
        proved=0 ended=1 is_new='' is_run=''
        while IFS= read -r line; do
            printf '%s\n' "$line" >&3
            case $line in
            'logic=proved '*) is_new=yes ;;
            "rt: running out/$1;"*) is_run=yes ;;
            'rt ended with status '*' in crates/'*)
                ended=${line#rt ended with status } took=${line##* after }
                ended=${ended%% *} took=${took%% in *} crate=${line##*/}
                # From there on the status is the program's own.
                [ "$crate" != "$1" ] || [ -z "$is_run" ] || ended=0
                [ "$ended" -eq 0 ] || break
                proved=$((proved + 1))
                if [ -n "$is_new" ]; then
                    [ -z "$news" ] || say "$news"
                    news='' is_new=''
                    say "proved $proved of $count: $crate ($took)"
                fi
                ;;
            esac
        done
        [ "$ended" -ne 0 ] || [ "$proved" -eq "$count" ] || ended=1
        exit "$ended"
    } 3>"$log"
    ended=$?
    [ "$ended" -eq 0 ] || stop "the program could not be proved and built (rt ended with status $ended); $log has what it said" 1
    [ -x "$program" ] || stop "the program is proved, but $program is missing; $log has what rt said" 1
    # Sources that changed meanwhile are for the next call.
    [ "$(sources_sum "$1")" != "$sources" ] || note_built "$1" "$sources"
}

# ---- What the program writes

# What went wrong a program says on standard error, in a line that begins with its name, whatever its status then is; a loader may say something
# there too. So its output is taken whole before any of it is printed. What is said comes through a pipe: a file for it would be lost where the
# output's own file finds no room.
take_output() { # CRATE [WORD..]
    crate=$1
    shift
    room=$(mktemp -d) || stop "no temporary folder can be made in ${TMPDIR:-/tmp}" 1
    trap 'rm -rf "$room"' EXIT
    trap 'exit 1' HUP INT TERM
    output=$room/output
    said=$("$here/tools/x86-64" "$program" "$@" 2>&1 >"$output")
    ended=$?
    [ -z "$said" ] || printf '%s\n' "$said" >&2
    case $(printf '%s\n' "$said" | sed -n "s/^$crate: //p") in
    '')
        [ "$ended" -eq 0 ] || stop "the program could not be started or was ended from outside (status $ended): there is no $gives" 1
        [ -s "$output" ] || stop "the program ended without a $gives and without a reason" 1
        ;;
    *' written'*) stop "the $gives could not be kept in the temporary folder $room; is ${TMPDIR:-/tmp} full?" 1 ;;
    *) stop "the $takes could not be read" ;;
    esac
}

give_output() { cat "$output" 2>/dev/null || stop "the $gives could not be written whole" 1; }
