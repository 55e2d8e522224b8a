#!/usr/bin/env bash
# run.sh PROGRAM FAULTY: runs every script NAME.in and compares what is printed with NAME.out, and each image or log NAME that a script
# saves with NAME.hex. A script's first line may name the plan to begin with; else it is the sample. FAULTY is the program with faults.c.
set -eu
program=$(realpath "$1")
faulty=$(realpath "$2")
tests=$(cd "$(dirname "${BASH_SOURCE[0]}")" && pwd)
work=$(mktemp -d)
trap 'rm -rf "$work"' EXIT
failed=0
fail() { echo "FAILED: $*"; failed=$((failed + 1)); }

cd "$work"
mkdir folder
bash "$tests/make-files.sh" "$tests/../../../plans"

scripts=0
for script in "$tests"/*.in; do
  name=$(basename "$script" .in)
  first=$(sed -n '1s/^# begin with //p' "$script")
  status=0
  "$program" "${first:-sample.plan}" < "$script" > "$name.got" 2>&1 || status=$?
  [ $status -eq 0 ] || fail "$name ended with $status"
  diff "$tests/$name.out" "$name.got" || fail "$name"
  scripts=$((scripts + 1))
done

saved=0
for hex in "$tests"/*.hex; do
  name=$(basename "$hex" .hex)
  od -An -tx1 "$name" | diff "$hex" - || fail "saved file $name"
  saved=$((saved + 1))
done

for number in {1..23}; do
  grep -q "^refused $number: " ./*.got || fail "no script is refused with $number"
done

status=0
"$program" 2> usage < /dev/null || status=$?
[ $status -eq 2 ] && grep -q '^usage: ' usage || fail "a call without a plan"
status=0
echo offered | "$program" sample.plan > /dev/full || status=$?
[ $status -eq 1 ] || fail "answers that cannot be written"

for cause in 16 17 18 bad; do
  grep -q "^entry [0-9]*: $cause, " ./*.got || fail "no entry of a log is wrong by $cause"
done

# As many moves as are kept, and one more.
{ yes settle | head -n 524288; printf '%s\n' 'moves most.log' 'log most.log' settle 'moves too-many.log'; } |
  "$program" sample.plan | tail -n 4 > most.got
diff - most.got <<'END' || fail "the most moves that are kept"
moves saved
log accepted
move 2 is done
the moves from the start on are not known: the lane was loaded, the plan changed, or there were too many
END

# A held lane's wait stops at 65535, and it has the next turn once it is free.
{ printf '%s\n' 'lane waits-0.image' 'lane waits-1.image' 'hold 0'; yes turn | head -n 65534; printf '%s\n' roster turn roster turn roster 'free 0' turn roster; } |
  "$program" sample.plan | tail -n 12 > waits.got
diff - waits.got <<'END' || fail "the longest wait"
lane 0: held, waited 65534, waits-0.image
lane 1: free, waited 0, waits-1.image
lane 1: move 2 is done
lane 0: held, waited 65535, waits-0.image
lane 1: free, waited 0, waits-1.image
lane 1: move 1 is done
lane 0: held, waited 65535, waits-0.image
lane 1: free, waited 0, waits-1.image
lane 0 is free
lane 0: move 1 is done
lane 0: free, waited 0, waits-0.image
lane 1: free, waited 1, waits-1.image
END

# A lane that cannot be saved stays in the box.
printf '%s\n' 'lane full-0.image' 'lane full-1.image' turn store turn leave turn roster |
  (ulimit -f 0 && trap '' XFSZ && "$program" sample.plan) | tail -n 8 > full.got
diff - full.got <<'END' || fail "lanes that cannot be saved"
lane 0: move 1 is done
cannot write full-0.image: File too large
lane 1 is as it was
lane 1: move 1 is done
cannot write full-1.image: File too large
lane 0: move 0 is done
lane 0: free, waited 0, full-0.image
lane 1: free, waited 1, full-1.image
END
for lane in 0 1; do cmp start.image full-$lane.image || fail "the file of a lane that cannot be saved"; done
left=$(find . -name '*.new*')
[ -z "$left" ] || fail "left beside: $left"

# Killed once all is written beside, before it is flushed to the disk or before it is renamed: the old file is whole, and so is the one beside.
saving() { printf 'settle\nsave %s\n' "$1" | "$faulty" sample.plan 2>&1 | tail -n 1; }
for call in fsync rename; do
  cp start.image killed-$call.image
  status=0
  (set -o pipefail; KILLED_AT=$call saving killed-$call.image) > /dev/null 2>&1 || status=$?
  [ $status -eq 137 ] || fail "killed at $call: status $status"
  cmp start.image killed-$call.image || fail "killed at $call"
  cmp tared.image killed-$call.image.new0 || fail "killed at $call, beside"
done

# The next save passes over a file that stands there, and leaves it alone.
cp visits.log killed-rename.image.new0
[ "$(saving killed-rename.image)" = "lane saved" ] && cmp tared.image killed-rename.image && cmp visits.log killed-rename.image.new0 &&
  [ ! -e killed-rename.image.new1 ] || fail "a save after a kill"

# Where flushing or renaming fails, the old file is whole and nothing stays beside it.
for call in fsync rename; do
  cp start.image failed-$call.image
  [ "$(FAILS=$call saving failed-$call.image)" = "cannot write failed-$call.image: Input/output error" ] || fail "failed $call: what is said"
  cmp start.image failed-$call.image && [ ! -e failed-$call.image.new0 ] || fail "failed $call"
done

# A link stays a link, and a mode what it was.
cp start.image linked.image
chmod 640 linked.image
ln -s linked.image link.image
[ "$(saving link.image)" = "lane saved" ] && cmp tared.image linked.image && [ -L link.image ] && [ "$(stat -c %a linked.image)" = 640 ] || fail "a link"

echo "$scripts scripts, $saved saved files, 11 calls: $failed failed"
[ $failed -eq 0 ]
