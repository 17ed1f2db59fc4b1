#!/usr/bin/env bash
# Build, check, count and time every engine on every workload; print one table.
# The workloads and their plans are those of expected/.
#
#   ./run.sh [ROUNDS] [SECONDS]     default 5 rounds of 0.1 s per figure
#   ./run.sh profile JOB..          where abe_run's instructions go, as in: profile w1-file w2-index
#
# Needs rt, gcc, rustc, python3, valgrind and SQLite's headers (libsqlite3-dev).
# ARCHIVE=path/to/libcapi.a takes an engine already built. Writes only in crates/*/out (by rt)
# and in a temporary folder, which is removed at the end.
set -euo pipefail
case ${1-} in -h | --help) sed -n '2,/^[^#]/s/^# \{0,1\}//p' "$0"; exit ;; esac
cd "$(dirname "$0")"
TMP=$(mktemp -d)
trap 'rm -rf "$TMP"' EXIT
BIN=$TMP/bin
mkdir -p "$BIN" "$TMP/out"

if [ -z "${ARCHIVE:-}" ]; then
    ARCHIVE=../$(python3 ../tests/built.py capi)
fi
CC="gcc -O3 -Wall -Wextra -Wl,-z,now"       # bound at the start, not inside a counted call
$CC -o "$BIN/abe" abe.c "$ARCHIVE"
python3 gen.py "$TMP/jobs"

# Instructions inside one call of function $1; the program and its words follow.
callgrind() {
    local f=$1; shift
    valgrind --tool=callgrind --toggle-collect="$f" --callgrind-out-file="$TMP/cg" "$@" >/dev/null 2>"$TMP/cg.log"
    sed -n 's/^totals: //p;s/^summary: //p' "$TMP/cg" | head -1
}

if [ "${1:-}" = profile ]; then
    shift
    for job in "$@"; do
        total=$(callgrind abe_run "$BIN/abe" "$TMP/jobs/$job.job")
        python3 shares.py "$job" "$total" "$TMP/cg"
    done
    exit
fi

ROUNDS=${1:-5} SECS=${2:-0.1}
$CC -funroll-loops -o "$BIN/limit" limit.c
$CC -o "$BIN/lite" lite.c -lsqlite3
rustc -O --edition 2021 -o "$BIN/naive" naive.rs

each() {      # call $1 ENGINE WORK VARIANT PLAN COMMAND.. for every figure; PLAN: whose answer it must give
    local f w p v job last= c sql
    for f in expected/*.out; do
        f=$(basename "$f" .out) w=${f%-*} p=${f#*-} job=$TMP/jobs/$f.job c=$p sql="scan free index group both"
        $1 abe $w $p $p "$BIN/abe" "$job"
        [ $p != mixed ] || continue                     # the engine's alone
        if [ $p = file ]; then
            c="counted file"
            [[ $w = w[123] ]] || c+=" first"
            for v in hoist linear hash; do $1 naive $w $v file "$BIN/naive" "$job" $v; done
        fi
        for v in $c; do $1 limit $w $v $p "$BIN/limit" "$job" $w $v; done
        [ $w != "$last" ] || continue                   # SQLite has no plans: once for each question
        last=$w
        [[ $w != w[13] ]] || sql+=" scan2"
        for v in $sql; do $1 sqlite $w $v $p "$BIN/lite" "$job" $w $v; done
    done
}

# Every engine gives the stored rows, and every engine but SQLite the stored trials too.
check() {
    local e=$1 w=$2 v=$3 p=$4 o=$TMP/out/$1-$2-$3; shift 4
    "$@" >"$o" || true
    if [ $e = sqlite ]; then cmp <(tail -n +2 "$o") <(tail -n +2 expected/$w-$p.out)
    else cmp "$o" expected/$w-$p.out; fi || { echo "DIFFERS: $e $w $v"; exit 1; }
}
for p in file:20 index:10 merging:8; do
    [ "$("$BIN/abe" "$TMP/jobs/j-${p%:*}.job")" = "ok 3 2 ${p#*:}"$'\n1 1823/2\n2 905\n3 -' ] || { echo "J differs: $p"; exit 1; }
done
each check
echo "all engines give the same rows and trials"

count() {
    local e=$1 w=$2 v=$3; shift 4
    case $e in
        abe) echo "abe $w $v $(callgrind abe_run "$@")";;
        limit) echo "limit $w $v $(callgrind ${w}_$v "$@")";;
    esac
}
each count >"$TMP/counts"

measure() {
    local e=$1 w=$2 v=$3; shift 4
    case $e in
        abe) "$@" $w $v $SECS;;
        naive) "$@" $w $SECS;;
        *) "$@" $SECS;;
    esac
}
before=$(cut -d' ' -f1-3 /proc/loadavg)
for r in $(seq "$ROUNDS"); do each measure | sed "s/^/$r\t/"; done >"$TMP/times"

date -u +"%F %H:%M UTC"
echo "$(nproc) processors, $(sed -n 's/^model name[^:]*: *//p' /proc/cpuinfo | head -1)"
gcc --version | head -1
echo "$(rustc --version | cut -d' ' -f1-2), sqlite $(sqlite3 --version | cut -d' ' -f1), $(valgrind --version)"
echo "$ROUNDS rounds of $SECS s per figure, load $before before, $(cut -d' ' -f1-3 /proc/loadavg) after"
python3 table.py "$TMP/times" "$TMP/counts"
