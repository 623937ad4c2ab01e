#!/usr/bin/env bash
# A day in the house beside the same day in git, in one run: 4,000 sheets come in, one is written and noted 300 times but one, and versions are looked at.
# Before: (cd crates/house_bench && rt run)
# The house is one program with its pages in a file; git is started anew for each command, and works on one file for each sheet. Both make all last that they
# keep: the house flushes its file, and git is told to flush all that it writes. What git is given to add is written before, and not counted.
set -eu
cd "$(dirname "$0")/.."
export LC_ALL=C
bench=$PWD/crates/house_bench/out/house_bench
# on a disk: elsewhere than in a folder in memory
folder=$(mktemp -d -p "${DAY_FOLDER:-/var/tmp}")
trap 'rm -rf "$folder"' EXIT
sheets=4000
early=100
later=199

# As in crates/house_bench/src/sheets.rt.
path() { printf -v path 'group-%02d/sheet-%04d-kept-in-the-house.md' $(($1 / 100)) "$1"; }
edition=0
write() {
    local line
    edition=$((edition + 1))
    printf -v line 'sheet %04d edition %04d' "$1" $edition
    path "$1"
    for _ in {1..25}; do echo "$line"; done > "$path"
}

# Runs a command, and adds the microseconds that it took to those of its kind.
declare -A all first last count
took() {
    local kind=$1 start us
    shift
    start=${EPOCHREALTIME/./}
    "$@" > /dev/null
    us=$((${EPOCHREALTIME/./} - start))
    all[$kind]=$((${all[$kind]:-0} + us))
    first[$kind]=${first[$kind]:-$us}
    last[$kind]=$us
    count[$kind]=$((${count[$kind]:-0} + 1))
}

# Sheets are written, and each is noted.
versions() {
    local i
    for i in $(seq "$2" $(($3 - 1))); do
        write $((i * 1237 % sheets))
        took "$1 write" git add "$path"
        took "$1 commit" git commit -q -m 'one sheet'
    done
}

git_day() {
    local i
    mkdir "$folder/git"
    cd "$folder/git"
    export HOME=$folder GIT_CONFIG_NOSYSTEM=1
    git init -q -b main
    git config core.fsync all
    git config core.fsyncMethod fsync
    git config user.name bench
    git config user.email bench@example.org
    for i in $(seq 0 99 | sed 's/.*/group-&/; s/-\(.\)$/-0\1/' | head -40); do mkdir "$i"; done
    for i in $(seq 0 $((sheets - 1))); do write $((i * 1237 % sheets)); done
    took start git version
    took import git add .
    took 'the first commit' git commit -q -m 'all sheets'
    versions early 0 $early
    versions later $early $((early + later))
    took history git log
    took 'status with nothing changed' git status
    write 0
    took 'one more write' git add .
    took status git status
    path 0
    took show git show "HEAD:$path"
    took leave git checkout -q HEAD -- .
    # the same import with one flush behind all objects in the place of one for each
    git init -q --bare "$folder/batch"
    took 'import in one batch' git --git-dir="$folder/batch" --work-tree=. -c core.fsync=all -c core.fsyncMethod=batch add .
    cd - > /dev/null
}

# The house's microseconds for the kind of that name: how many commands, all of them, the first and the last, and of all what the flushes took.
own() {
    awk -F': ' -v kind="$1" '$1 == kind || index($1, kind " of ") == 1 {
        split($2, t, /[ (),]+/)
        if (!n) first = t[7]
        n += t[1]; all += t[3]; flushes += t[5]; last = t[11]
    } END { print n, all, first, last, flushes }' "$folder/times"
}

row() {
    own "$1" | awk -v name="$1" -v git="${all[$1]}" -v first="${first[$1]}" -v last="${last[$1]}" '{
        printf "%-28s %5d | %9.1f %9.2f %9.2f %9.1f | %9.1f %9.2f %9.2f | %8.2f\n",
            name, $1, $2 / 1e3, $3 / 1e3, $4 / 1e3, $5 / 1e3, git / 1e3, first / 1e3, last / 1e3, git / $2
    }'
}

"$bench" "$folder/pages" > "$folder/counts" 2> "$folder/times"
git_day

echo "milliseconds; the last column is how many times as long git took"
printf '%-28s %5s | %9s %9s %9s %9s | %9s %9s %9s | %8s\n' '' times house first last flushes git first last ratio
for kind in import 'the first commit' 'early write' 'early commit' 'later write' 'later commit' history 'status with nothing changed' 'one more write' status show leave; do
    row "$kind"
done
awk -v us="${all[import in one batch]}" 'BEGIN { printf "git, import in one batch: %.1f\n", us / 1e3 }'
awk -v us="${all[start]}" 'BEGIN { printf "git, to start and say its version: %.1f\n", us / 1e3 }'
echo
echo "the house's pages"
cat "$folder/counts"
