# shellcheck shell=bash
# Read by the scripts of this folder that measure programs: their options, the programs that they measure, and how that is done. Such a script says
# what it does in a function `help` before it reads this. It is then in the top folder, and `from` is the caller's.

# `time` prints a comma where the language of the place does, and awk would read it as an end.
export LC_ALL=C
from=$PWD
CDPATH='' cd "$(dirname "$0")/.." || exit 2

misused() {
	help >&2
	exit 2
}

# --runs is for those that take the median of several measurements: they say how many in `runs` before they take the options.
unset -v runs
take_options() { # CRATE of the program that is measured, [OPTION..]
	crate=$1
	program=crates/$crate/out/$crate
	shift
	while (($# > 0)); do
		case $1 in
		--help | -h)
			help
			exit
			;;
		--runs)
			[[ ${runs+said} ]] || misused
			runs=${2:-}
			;;
		--program) program=${2:-} && [[ $program == /* ]] || program=$from/$program ;;
		*) misused ;;
		esac
		shift
		if (($# > 0)); then shift; fi
	done
}

# Makes the folder $work with the work files in it. The programs come one by one, the first being the one whose output the others are
# held to: a program, with a word where it takes one, and a heading.
set_up() { # SOURCE of the program that writes the files, [WORD]
	. tools/toolchain.sh
	[[ ! ${runs+said} || $runs =~ ^[1-9][0-9]*$ ]] || fail "--runs takes a count from 1 on"
	[[ -f $program ]] || fail "no program $program; 'rt run' in crates/$crate makes it, and so does .ci/run"
	work=$(mktemp -d)
	trap 'rm -rf "$work"' EXIT
	tools/plain-c "$1" "$work/make-files"
	shift
	"$work/make-files" "$work" "$@" || fail "the work files could not be written"
	headings=() programs=() words=()
}

add_program() { # HEADING PROGRAM [WORD]
	headings+=("$1")
	programs+=("$2")
	words+=("${3:-}")
}

add_plain_c() { # HEADING SOURCE
	tools/plain-c "$2" "$work/program-${#programs[@]}"
	add_program "$1" "$work/program-${#programs[@]}"
}

# The report, and what it is measured against.
add_reports() {
	add_program "report" "$program"
	add_plain_c "C by ticks" tests/plain/report.c
	add_plain_c "C by events" tests/plain/events.c
}

# Becomes one of the programs; a script that goes on calls it in ( ).
begin() { # WHICH
	exec "${programs[$1]}" ${words[$1]:+"${words[$1]}"}
}

# Nothing is measured of programs that do not print the same. What the first prints stays in $work/output-0.
compare_outputs() { # FILE
	local p
	for ((p = 0; p < ${#programs[@]}; p++)); do
		(begin "$p") <"$work/$1" >"$work/output-$p" || fail "${headings[p]} ends with status $? on the file $1"
		cmp -s "$work/output-0" "$work/output-$p" || fail "${headings[p]} prints something else than ${headings[0]} on the file $1"
	done
}

# The processor time of so many runs of a program on a file, in milliseconds for one.
measure() { # WHICH FILE REPEATS
	local TIMEFORMAT='%U %S' i
	{ time for ((i = 0; i < $3; i++)); do (begin "$1") <"$work/$2" >/dev/null 2>&1; done; } 2>&1 |
		awk -v repeats="$3" '{ printf "%.3f\n", ($1 + $2) * 1000 / repeats }'
}

median() { # FILE with one number to a line
	sort -n "$1" | awk '{ of[NR] = $1 } END { print (of[int((NR + 1) / 2)] + of[int(NR / 2) + 1]) / 2 }'
}

# Leaves in `medians` the time of each program on a file, in milliseconds. The clock of the shell counts in milliseconds, so a
# measurement repeats a short run until it takes about a quarter of a second. The programs take turns, so that what else the
# machine does falls on all of them.
take_medians() { # FILE
	local p run once repeats=()
	for ((p = 0; p < ${#programs[@]}; p++)); do
		once=$(measure "$p" "$1" 1)
		repeats+=("$(awk -v once="$once" 'BEGIN { n = 250 / (once < 1 ? 1 : once); print n < 1 ? 1 : int(n + 0.999) }')")
		: >"$work/times-$p"
	done
	for ((run = 0; run < runs; run++)); do
		for ((p = 0; p < ${#programs[@]}; p++)); do
			measure "$p" "$1" "${repeats[p]}" >>"$work/times-$p"
		done
	done
	medians=()
	for ((p = 0; p < ${#programs[@]}; p++)); do medians+=("$(median "$work/times-$p")"); done
}

# The kernel names the model on x86-64 only; lscpu, where it is installed, knows more.
tell_machine() {
	local model
	model=$({ cat /proc/cpuinfo; lscpu; } 2>/dev/null |
		awk -F'[ \t]*: *' 'tolower($1) == "model name" && !told { told = $2 } END { print told }') || true
	echo "machine: $(uname -m), $(getconf _NPROCESSORS_ONLN) processors, ${model:-model not told}"
}

# Lines with tabs between their parts, as a table.
lay_out() {
	awk -F'\t' '{ printf "%-12s", $1; for (i = 2; i <= NF; i++) printf "%22s", $i; print ""; fflush() }'
}
