# shellcheck shell=sh
# Read by what builds programs, or needs them built (POSIX sh): where the program of a crate stands, and whether it was built of these very
# sources. `here` is the project's folder.
#   program_of CRATE      prints where rt leaves the program
#   crates_of CRATE       prints the crates that it is proved from, a line each, lowest first and itself last
#   sources_sum CRATE     prints a sum of all that it is made from: the toolchain, and of each of those crates its line of crates.txt and its files
#   note_built CRATE SUM  notes that the program that stands there was proved and built of the sources of that sum
#   is_built CRATE        whether such a note says so of the program and the sources as they stand
#
# rt tells by itself whether what `rt run` built is up to date. Of a program that `rt ci` built it cannot, since that keeps nothing for the
# commands that work in a crate's folder: they would prove all of it once more. So the gate notes what it has proved, and so do the commands.
# shellcheck disable=SC2154 # here is whoever's reads this

program_of() { printf '%s\n' "$here/crates/$1/out/$1"; } # CRATE

crates_of() { # CRATE
    awk -v program="$1" '
        function reach(n,    a, k, m) {
            if (!(n in needs) || (n in seen)) return
            seen[n]
            m = split(needs[n], a, " ")
            for (k = 1; k <= m; k++) reach(a[k])
            print n
        }
        { sub(/#.*/, ""); i = index($0, ":"); if (!i) next; n = substr($0, 1, i - 1); gsub(/[ \t]/, "", n); needs[n] = substr($0, i + 1) }
        END { reach(program) }' "$here/crates.txt"
}

# The toolchain's line, as `rt version` prints it. That takes a third of a second, and the file that it prints takes none.
toolchain() {
    rt=$(readlink -f "$(command -v rt)")
    cat "${rt%/bin/*}/KIT-ID" 2>/dev/null || rt version
}

sources_sum() { # CRATE
    (
        cd "$here" && LC_ALL=C && export LC_ALL || exit
        {
            toolchain
            for crate in $(crates_of "$1"); do
                grep "^[ 	]*$crate[ 	]*:" crates.txt
                for part in src specs proofs; do
                    [ ! -d "crates/$crate/$part" ] || find "crates/$crate/$part" -type f -exec sha256sum {} + | sort -k 2
                done
            done
        } | sha256sum
    )
}

note_built() { # CRATE SUM
    mkdir -p "$here/target/built" 2>/dev/null &&
        { printf '%s\n' "$2" && sha256sum <"$(program_of "$1")"; } >"$here/target/built/$1.part" 2>/dev/null &&
        mv -f "$here/target/built/$1.part" "$here/target/built/$1"
}

is_built() { # CRATE
    [ -x "$(program_of "$1")" ] && [ -f "$here/target/built/$1" ] &&
        [ "$(cat "$here/target/built/$1")" = "$(sources_sum "$1"; sha256sum <"$(program_of "$1")")" ]
}
