# shellcheck shell=sh
# Read by the tests of this folder, of sh and of bash, before all else:
#
#     . "$(dirname "$0")/begin.sh"
#
# From then on a test runs in the top folder and in a plain locale, whatever the caller's are. It has
#   from            the caller's folder
#   here            the top folder
#   room            a folder for what is temporary, which goes when the test ends
#   fail            fail WORDS: says them, and ends the test with status 1
#   needs_program   needs_program CRATE: the program is built already, of these very sources, and stands in $program; or the test ends with
#                   status 2. No test proves anything

export LC_ALL=C
# shellcheck disable=SC2034 # for the test
from=$PWD
CDPATH='' cd "$(dirname "$0")/.." || exit 2
here=$PWD
# shellcheck source=tools/built.sh
. tools/built.sh

room=$(mktemp -d) || exit 2
trap 'rm -rf "$room"' EXIT
trap 'exit 1' HUP INT TERM

fail() { printf 'tests/%s: %s\n' "${0##*/}" "$*" >&2; exit 1; }

needs_program() { # CRATE
    program=crates/$1/out/$1
    is_built "$1" || { echo "tests/${0##*/}: $program is not there, or not known to be built of these sources: .ci/run builds it" >&2; exit 2; }
}
