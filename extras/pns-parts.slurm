#!/bin/sh
# Solves a problem in parts on a cluster with Slurm and a shared folder: the rounds of `pns-parts`,
# each one job array.
#
#   pns-parts.slurm FILE BUDGET [-j JOBS] [-d FOLDER] [-- WORDS FOR SBATCH]
#
# FILE, BUDGET and FOLDER are those of pns-parts, which lies beside this script; JOBS is how many
# parts of a round may run at a time (all, if left out). The words after `--` go to each sbatch, as
# `-- -p short --mem=2G`. All names are taken from where the call is made, and have to mean the same
# on each node. PNS names the program, if not `pns`.
#
# The call hands in one job and ends. That job makes the first search or puts the parts of the last
# round back, splits the tree, and hands in the next round: an array with a task for each part, and
# after it, by --dependency=afterok, the same job again. When no leaf is open it judges the tree:
# FOLDER/answer has the claim and `accepted`, and FOLDER/log what each job said.
#
# A task tries its part three times. If one fails even so, or its node is lost and Slurm doesn't
# requeue it, the job after the array is dropped (--kill-on-invalid-dep); the same call again goes
# on from what is in FOLDER.
set -u

fail() {
    echo "pns-parts.slurm: $1" >&2
    exit "${2:-1}"
}

least() {
    if [ "$1" -lt "$2" ]; then echo "$1"; else echo "$2"; fi
}

# Hands in the job of a round, after the array of the last one if there is one.
# next_round ROUND BUDGET [ARRAY]
next_round() {
    sbatch --parsable -J pns-round -o "$folder/log/round-$1" ${3:+--dependency=afterok:$3} \
        --kill-on-invalid-dep=yes $words \
        "$self" --round "$self" "$file" "$most" "$folder" "$jobs" "$1" "$2" "$words"
}

case ${1-} in
--round | --task)
    step=$1
    self=$2
    file=$3
    most=$4
    folder=$5
    parts=$(dirname "$self")/pns-parts
    shift 5
    ;;
*) step= ;;
esac

case $step in
--task)
    # one part: --task SELF FILE MOST FOLDER BUDGET
    set -- "$1" $(sed -n "${SLURM_ARRAY_TASK_ID}p" "$folder/list")
    for try in 1 2 3; do
        "$parts" --part "$file" "$most" "$folder" "$1" "$2" "$3" && exit 0
    done
    exit 1
    ;;
--round)
    # --round SELF FILE MOST FOLDER JOBS ROUND BUDGET WORDS
    jobs=$1
    round=$2
    budget=$3
    words=$4
    "$parts" --first "$file" "$most" "$folder" || exit $?
    [ -f "$folder/open" ] && mv "$folder/open" "$folder/before"
    "$parts" --put "$file" "$most" "$folder" || exit $?
    "$parts" --list "$file" "$most" "$folder" || exit $?
    leaves=$(($(wc -l < "$folder/open") - 1))
    date +"round $round: %T, $leaves open leaves"
    if [ "$leaves" -eq 0 ]; then
        "$parts" --judge "$file" "$most" "$folder" | tee "$folder/answer"
        date +'judged: %T'
        tail -n 1 "$folder/answer" | grep -q '^accepted$'
        exit $?
    fi
    last=$(cat "$folder/budget" 2> /dev/null || echo 0)
    echo "$budget" > "$folder/budget"
    [ "$last" -eq "$most" ] && cmp -s "$folder/before" "$folder/open" &&
        fail 'no open leaf can be branched with this BUDGET' 4
    count=$(wc -l < "$folder/list")
    array=$(sbatch --parsable -J pns-part -o "$folder/log/part-$round-%a" \
        --array="1-$count%$(least "$jobs" "$count")" $words \
        "$self" --task "$self" "$file" "$most" "$folder" "$budget") || fail 'sbatch'
    next_round $((round + 1)) "$(least $((budget * 8)) "$most")" "$array" || fail 'sbatch'
    exit 0
    ;;
esac

usage='usage: pns-parts.slurm FILE BUDGET [-j JOBS] [-d FOLDER] [-- WORDS FOR SBATCH]'
[ $# -ge 2 ] || fail "$usage" 2
self=$(realpath "$0")
file=$(realpath "$1")
most=$2
shift 2
jobs=1000
folder=$(basename "$file").parts
words=
while [ $# -gt 0 ]; do
    case $1 in
    -j) jobs=${2-} ;;
    -d) folder=${2-} ;;
    --)
        shift
        words=$*
        break
        ;;
    *) fail "what is $1" 2 ;;
    esac
    [ $# -ge 2 ] || fail "$1 has no word behind it" 2
    shift 2
done
case $most$jobs in
*[!0-9]* | '') fail 'BUDGET and JOBS are whole numbers' 2 ;;
esac
[ -f "$file" ] || fail "no file $file" 2
mkdir -p "$folder/parts" "$folder/log" || fail "no folder $folder"
folder=$(realpath "$folder")
rm -f "$folder"/parts/*.new.* "$folder/open" "$folder/answer" "$folder/budget"
next_round 1 "$(least 16000 "$most")"
