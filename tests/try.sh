# shellcheck shell=sh
# Read by the tests of commands, behind begin.sh (POSIX sh): calls that are tried as somebody at the keyboard would make them, what may be asked
# of a call that was tried, the calls that every command answers alike, and a made-up project to try the building of a program on.
#
#     try 0 './day-report FILE'; gives samples/file-p.report; silent
#     try 2 './day-report none'; refusal 'no such file'
#
# A test ends with a call of tell_tried.
# shellcheck disable=SC2034,SC2154 # run and first are for the test; room is set by begin.sh

project=$(pwd -P)
out=$room/out err=$room/err

# A hang is a failure like any other: status 124.
limit='timeout 60'
command -v timeout >/dev/null || limit=''

# Root reads and writes every file, so where that matters it asks as nobody.
as=''
[ "$(id -u)" -ne 0 ] || as='setpriv --reuid=65534 --regid=65534 --clear-groups'
as_someone() { [ -z "$as" ] || $as sh -c "$1" 2>/dev/null; } # CONDITION that has to hold for whoever asks
chmod 711 "$room"

tried=0 skipped=0
case='before the first call'
fail() {
    printf 'tests/%s: %s: %s\n' "${0##*/}" "$case" "$*" >&2
    [ ! -s "$err" ] || sed 's/^/  it said: /' "$err" >&2
    exit 1
}
skip() { echo "${0##*/}: not tried: $1"; skipped=$((skipped + 1)); }
tell_tried() { echo "${0##*/}: $tried calls as they should be, $skipped not tried"; }

# ---- A call, and what may be asked of it

# try STATUS COMMAND: runs the command in a shell; its outputs are kept in $out and $err.
# STATUS is a number, or 'not-0', which a hang is not.
try() {
    case=$2
    tried=$((tried + 1))
    $limit sh -c "$2" >"$out" 2>"$err" </dev/null
    status=$?
    [ "$status" -ne 124 ] || fail 'it hangs'
    case $1 in
    not-0) [ "$status" -ne 0 ] || fail 'status 0' ;;
    *) [ "$status" -eq "$1" ] || fail "status $status instead of $1" ;;
    esac
}
lines() { wc -l <"$1" | tr -d ' '; }
says() { grep -q -e "$1" "$err" || fail "standard error does not say '$1'"; }
one_line() { [ "$(lines "$err")" -eq 1 ] || fail "standard error has $(lines "$err") lines instead of one"; }
silent() { [ ! -s "$err" ] || fail 'it says something on standard error'; }
nothing() { [ ! -s "$out" ] || fail 'it writes something to standard output'; }
shows() { grep -q -e "$1" "$out" || fail "standard output does not have '$1'"; }
gives() { cmp "$out" "$1" >&2 || fail "it does not give $1"; }
refusal() { nothing; one_line; says "$1"; }

# Whether $out is a well-formed picture: one svg element, every element ended in turn, no stray < or &. It goes line by
# line, since no element of these pictures begins on one line and goes on on the next.
picture() {
    awk '
        function bad(what) { print "  line " NR ": " what; told = 1; exit 1 }
        {
            text = $0
            while ((at = index(text, "<")) > 0) {
                before = substr(text, 1, at - 1)
                if (before ~ /[&>]/) bad("a stray character in: " substr(before, 1, 60))
                if (depth == 0 && before ~ /[^ ]/) bad("text outside the picture")
                text = substr(text, at + 1)
                at = index(text, ">")
                if (!at) bad("an element without an end")
                tag = substr(text, 1, at - 1)
                text = substr(text, at + 1)
                if (tag ~ /<|nan|inf/ || gsub(/"/, "\"", tag) % 2) bad("a broken element: " substr(tag, 1, 60))
                name = tag
                sub(/[ \/].*/, "", name)
                if (tag ~ /^\//) {
                    if (depth == 0 || open[depth] != substr(tag, 2)) bad("<" tag "> ends nothing")
                    depth--
                } else {
                    elements++
                    if (elements == 1 && name != "svg") bad("the first element is " name)
                    if (depth == 0 && elements > 1) bad("a second picture")
                    if (tag !~ /\/$/) open[++depth] = name
                }
            }
            if (text ~ /[&>]/) bad("a stray character in: " substr(text, 1, 60))
        }
        END { if (!told && (depth || !elements)) bad("it ends within an element") }' "$out" >&2 || fail 'it is no well-formed picture'
}

# ---- What every command does alike

# usual_calls NAME FILE ANSWER LONG_FILE LONG_ANSWER: tries ./NAME, which reads one file and has a program answer that it builds where need be.
# All four are files of the project; of FILE it gives ANSWER, of LONG_FILE LONG_ANSWER.
usual_calls() {
    try 0 "./$1 --help"; silent; shows "$1 FILE"
    cp "$out" "$room/help"
    try 0 "./$1 -h"; gives "$room/help"
    try 0 "./$1 $2"; gives "$3"; silent
    try 0 "./$1 < $2"; gives "$3"; silent
    try 0 "./$1 - < $2"; gives "$3"
    try 0 "cat $2 | ./$1"; gives "$3"
    try 0 "./$1 -- $2"; gives "$3"
    try 0 "./$1 $4"; gives "$5"

    # From other folders, through links, and files with odd names.
    mkdir -p "$room/odd"
    rm -f "$room"/odd/*
    try 0 "cd ./samples && ../$1 '../$2'"; gives "$3"
    try 0 "cd / && '$project/$1' '$project/$2'"; gives "$3"
    ln -s "$project/$1" "$room/odd/command"
    ln -s command "$room/odd/again"
    try 0 "cd / && '$room/odd/again' '$project/$2'"; gives "$3"
    cp "$2" "$room/odd/two words"; cp "$2" "$room/odd/-x"; ln -s "$project/$2" "$room/odd/link"
    try 0 "./$1 '$room/odd/two words'"; gives "$3"
    try 0 "./$1 '$room/odd/link'"; gives "$3"
    try 0 "cd '$room/odd' && ./command -- -x"; gives "$3"

    # A loader that complains does not spoil the answer.
    try 0 "LD_PRELOAD=/no/such/object.so ./$1 $2"; gives "$3"

    # Two calls at once.
    cat "$3" "$3" >"$room/both"
    try 0 "./$1 $2 > '$room/one' & ./$1 $2 > '$room/two'; wait; cat '$room/one' '$room/two'"; gives "$room/both"

    # Wrong calls.
    try 2 "./$1 samples/none"; refusal 'samples/none: no such file'
    try 2 "./$1 samples"; refusal 'samples: is a directory'
    try 2 "./$1 < samples"; refusal 'standard input is a directory'
    try 2 "./$1 <&-"; refusal 'standard input is closed'
    ln -s nowhere "$room/odd/dangling"
    try 2 "./$1 '$room/odd/dangling'"; refusal 'a link to a file that is not there'
    try 2 "./$1 $2 $2"; refusal 'usage'
    try 2 "./$1 --no-such-option"; refusal 'usage'
    try 2 "./$1 ''"; refusal 'no such file'
    cp "$2" "$room/secret"; chmod 0 "$room/secret"
    if as_someone "[ -x '$project/$1' ] && [ -e '$room/secret' ]"; then
        try 2 "$as ./$1 '$room/secret'"; refusal 'permission denied'
    else
        skip "./$1 and an unreadable file: root reads every file, and nobody does not reach this folder"
    fi
    rm -f "$room/secret"

    # Without the toolchain: a PATH with what the script itself needs, and no rt.
    if [ ! -d "$room/path" ]; then
        mkdir "$room/path"
        for tool in sh awk cat cut dirname readlink mkdir rm ln sleep; do ln -s "$(command -v "$tool")" "$room/path/$tool"; done
    fi
    try 2 "PATH='$room/path' ./$1 $2"; refusal 'the Rattle toolchain is missing'
    try 0 "PATH='$room/path' ./$1 --help"; gives "$room/help"

    # Outputs that are closed, full, or taken away: an end, and not a good one.
    for file in "$2" "$4"; do
        try 1 "./$1 $file >&-"; refusal 'standard output is closed'
        if [ -c /dev/full ]; then
            try 1 "./$1 $file >/dev/full"; one_line; says 'could not be written whole'
        else
            skip "./$1 and a full output: there is no /dev/full"
        fi
    done
    head -n 1 "$5" >"$room/first"
    try 0 "./$1 $4 | head -n 1"; gives "$room/first"
}

# ---- A made-up project

# make_project CRATE COMMAND..: in $made, a project of four crates, CRATE the last, with these commands and an rt that only says that it proves.
# $run is a call of the first of them. The files slow, broken and no-program there make rt do otherwise, and so does a change of a source, which
# touch_source makes; forget_all leaves nothing of what was built. Every program answers "the report of" its input and its words, whatever it is;
# $first is a script that comes before that, where there is one.
make_project() {
    made=$room/made
    mkdir -p "$made/tools" "$made/bin"
    printf '# crates\nbase:\nmiddle: base   # a remark\nother: base\n%s: middle\n' "$1" >"$made/crates.txt"
    for crate in base middle other "$1"; do
        mkdir -p "$made/crates/$crate/src"
        echo "// $crate" >"$made/crates/$crate/src/lib.rt"
    done
    shift
    cp "$@" "$made/"
    cp tools/*.sh "$made/tools/"
    # shellcheck disable=SC2016
    printf '#!/bin/sh\n[ ! -f "$0.first" ] || . "$0.first"\nshift\necho the report of $(cat) $*\n' >"$made/tools/x86-64"
    cat >"$made/bin/rt" <<'RT'
#!/bin/sh
# As rt lib and rt run do in a crate's folder: a crate is proved, or nothing is said of it where it has not changed; two at once would wait for each
# other. The crate base never changes.
[ "$*" != version ] || { echo 'a made-up toolchain'; exit; }
crate=${PWD##*/}
{ [ $# -eq 1 ] && { [ "$1" = lib ] || [ "$1" = run ]; } && [ "${PWD%/*}" = "$(cd .. && pwd)" ] && grep -q "^$crate:" ../../crates.txt; } || { echo "called with $*" >&2; exit 2; }
[ "$1" = lib ] || exec 3>&1 >&2
mkdir ../../target/alone || { echo 'two at once'; exit 2; }
mkdir -p out
cat
[ ! -f ../../slow ] || sleep 1
if [ -f ../../broken ] && [ "$crate" = middle ]; then echo 'middle NOT PROVED'; echo 'logic=not-proved functions=3'; rmdir ../../target/alone; exit 1; fi
if [ "$crate" != base ] && ! { cat ../base/src/* src/* | cmp -s - out/stamp && { [ "$1" = lib ] || [ -f "out/$crate" ]; }; }; then
    echo "logic=proved functions=3"
    cat ../base/src/* src/* >out/stamp
fi
rmdir ../../target/alone
[ "$1" = run ] || exit 0
[ -f ../../no-program ] || { : >"out/$crate"; chmod +x "out/$crate"; }
echo "rt: running out/$crate; to give it other input, run that file yourself"
echo 'what it writes of nothing' >&3
echo "$crate: it was given nothing"
exit 3
RT
    chmod +x "$made/bin/rt" "$made/tools/x86-64"
    run="echo a file | PATH='$made/bin':\$PATH '$made/$1'"
    first=$made/tools/x86-64.first
}
touch_source() { echo '// more' >>"$made/crates/$1/src/lib.rt"; } # CRATE
forget_all() { rm -rf "$made/target" "$made"/crates/*/out; }
