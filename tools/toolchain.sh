# shellcheck shell=sh
# Read by the scripts that need the toolchain's own compiler (POSIX sh): finds the toolchain. It sets
#   kit        the toolchain's folder
# and ends the script with status 2 and one line where there is none.

fail() {
	echo "$0: $*" >&2
	exit 2
}

# A preloaded object is meant for the caller's own programs: it could change what `read` and `write` do in the program that is started.
unset LD_PRELOAD

# `rt doc` prints the path of a page at the toolchain's own top.
command -v rt >/dev/null || fail "the Rattle toolchain is missing: no command rt"
kit=$(rt doc) || fail "rt doc does not say where the toolchain is"
kit=$(dirname "$kit")
[ -x "$kit/toolchain/bin/clang" ] || fail "the Rattle toolchain in $kit has no compiler of its own"
