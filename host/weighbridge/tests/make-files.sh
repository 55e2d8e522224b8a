#!/usr/bin/env bash
# make-files.sh PLANS: writes the plans, images and logs that the scripts use into the current directory.
# Each damaged file is the sample plan, or its starting image, with a few bytes replaced; for added oracles those of the wet bales.
set -eu

# patched FROM TO OFFSET BYTES...: a copy with bytes replaced from an offset; further offsets with their bytes follow after commas.
patched() {
  local from=$1 to=$2
  shift 2
  cp "$from" "$to"
  while [ $# -gt 0 ]; do
    local at=$1 bytes=""
    shift
    while [ $# -gt 0 ] && [ "$1" != , ]; do bytes+="\\x$1"; shift; done
    [ $# -eq 0 ] || shift
    printf "$bytes" | dd of="$to" bs=1 seek="$at" conv=notrunc status=none
  done
}
plan() { patched sample.plan "$@"; }
image() { patched start.image "$@"; }
wet_plan() { patched wet-bales.plan "$@"; }
wet_image() { patched wet-start.image "$@"; }
zeros() { head -c "$1" /dev/zero; }

cp "$1"/{sample,wet-bales,maximal-oracles,split-skip}.plan .

# The starting images of the sample lane and of the wet bales' lane, by the layout of the image.
{ printf 'YARD\x01\x01\x01\x03'; zeros 4; printf '\x07'; zeros 27; printf '\xff%.0s' {1..16}; zeros 256; } > start.image
{ printf 'YARD\x01\x02\x05\x06'; zeros 4; printf '\x29'; zeros 27; printf '\xff%.0s' {1..16}; zeros 256; } > wet-start.image

# 1: the head
: > empty.plan
head -c 47 sample.plan > 1-short.plan
plan 1-letters.plan 3 4d
plan 1-zeros.plan 47 01
plan 1-zeros-46.plan 46 01
# 2: counts and first oracle state
plan 2-components-0.plan 10 00
plan 2-components-17.plan 10 11
plan 2-variables-65.plan 12 41
plan 2-transitions-257.plan 14 01 01
plan 2-interactions-0.plan 16 00
plan 2-interactions-65.plan 16 41
plan 2-propositions-5.plan 18 05
plan 2-states-33.plan 20 21
plan 2-first-state.plan 22 02
plan 2-words-4097.plan 24 01 10
plan 2-unused-states.plan 43 01
wet_plan 2-added-4.plan 42 04
wet_plan 2-added-none.plan 42 00
wet_plan 2-added-states-0.plan 43 00
wet_plan 2-added-states-33.plan 43 21
wet_plan 2-added-unused.plan 45 01
# 3: offsets and lengths
plan 3-first-offset.plan 26 31
plan 3-last-offset.plan 40 d4
plan 3-stated-length.plan 8 eb
head -c 233 sample.plan > 3-byte-less.plan
{ cat sample.plan; zeros 1; } > 3-byte-more.plan
{ cat sample.plan; zeros 100000; } > 3-far-longer.plan
{ cat maximal-oracles.plan; zeros 1; } > 3-past-the-longest.plan
wet_plan 3-added-states.plan 43 02
# 4: component
plan 4-no-location.plan 48 00
plan 4-locations-17.plan 48 11
plan 4-start.plan 49 03
plan 4-ports-17.plan 50 11
plan 4-zero.plan 51 01
# 5: variable
plan 5-owner.plan 52 01
plan 5-zero.plan 55 01
# 6: transition
plan 6-component.plan 60 01
plan 6-source.plan 61 03
plan 6-port.plan 62 03
plan 6-destination.plan 99 03
# 7: interaction
plan 7-port.plan 108 03
plan 7-no-part.plan 132 ff
plan 7-past-components.plan 58 01 , 158 00
# 8: ranks
plan 8-past-interactions.plan 180 08
plan 8-below-itself.plan 188 02
plan 8-circle.plan 180 02 , 188 01
plan 8-not-passed-on.plan 180 02 , 188 04
# 9: oracle
plan 9-verdict-4.plan 208 04 00 00
plan 9-next-state.plan 210 02
plan 9-bad-left.plan 212 00
plan 9-good-left.plan 208 03
# 20: an added oracle, whose three states stand from 414 on
wet_plan 20-verdict-4.plan 432 04
wet_plan 20-next-state.plan 415 03
wet_plan 20-bad-left.plan 440 01
wet_plan 20-good-left.plan 414 03
# 10: code; the guard of one word is word 10, behind the sample's code, for transition 0
{ cat sample.plan; printf '\x00\x60'; } > longer.plan
patched longer.plan 10-guard.plan 8 ec , 24 0b , 64 0a 00 01 00
plan 10-span-past-words.plan 206 06
plan 10-no-proposition.plan 206 00
plan 10-kind-7.plan 215 70
plan 10-variable.plan 218 01
plan 10-location.plan 224 03
plan 10-operator.plan 230 08
plan 10-one-value.plan 222 00 60
# Two faults: the one that is tested first answers, and 20 is tested before 10.
plan 4-and-10.plan 51 01 , 206 00
plan 8-and-9.plan 188 02 , 208 04
wet_plan 9-and-20.plan 396 04 , 414 04
wet_plan 20-and-10.plan 414 04 , 446 70

# Lawful variants of the sample.
plan bad-start.plan 49 02
plan other-number.plan 4 08
plan 1-below-0.plan 188 01
plan 0-below-1.plan 180 02
# As 1-below-0.plan, but every move is bad: the proposition is that the last port is not "none yet".
plan 1-below-0-all-bad.plan 188 01 , 206 02 , 224 ff 50 06 60
# Verdict 1 where the lane begins, and in an added oracle once a wet bale is brought.
plan verdict-1.plan 208 01
wet_plan added-verdict-1.plan 423 01
plan states-swapped.plan 22 01 , 208 00 00 00 02 01 00
plan owes-five.plan 56 fb ff ff ff
{ head -c 60 sample.plan; tail -c +109 sample.plan; } > shorter.plan
patched shorter.plan no-transitions.plan 8 ba , 14 00 , 32 3c 00 84 00 9c 00 a0 00 a6 00
# The tare starts at 2147483647, or one below, and move 1 adds 1 to it.
{ cat sample.plan; printf '\x00\x20\x01\x00\x00\x60\x00\x30'; } > longer.plan
patched longer.plan held.plan 8 f2 , 24 0e , 56 ff ff ff 7f , 80 0a 00 04
patched held.plan one-below.plan 56 fe
# The tare starts at -524289, and move 1 takes it times 4096 plus 4095.
{ cat sample.plan; printf '\x00\x20\xff\x1f\x00\x30'; } > longer.plan
patched longer.plan held-once.plan 8 f0 , 24 0d , 56 ff ff f7 ff , 80 0a 00 03
# As held.plan, but a negative tare is bad; and the same where move 1 stores -2147483648, as a sum that runs round does.
{ cat held.plan; printf '\x00\x20\x00\x00\x03\x60\x06\x60'; } > longer.plan
patched longer.plan old-mark.plan 8 fa , 24 12 , 204 0e 00 04
{ cat old-mark.plan; printf '\x00\x00\x7f\x00\xff\x1f\xff\x1f\x01\x60\x01\x00\x01\x60\x00\x30'; } > longer.plan
patched longer.plan ran-round.plan 8 0a 01 , 24 1a , 80 12 00 08
# The wet bales' lane under the common oracle alone.
{ head -c 414 wet-bales.plan; tail -c +442 wet-bales.plan; } > shorter.plan
patched shorter.plan common.plan 8 0a 02 , 40 9e 01 00 00

# 64 moves, each of which ends badly; no variables, no propositions, no code.
{
  printf 'PLAN\x40\x00\x00\x00\x46\x08\x01\x00\x00\x00\x01\x00\x40\x00\x00\x00\x03\x00\x00\x00\x00\x00'
  printf '\x30\x00\x34\x00\x34\x00\x40\x00\x40\x06\x40\x08\x40\x08\x46\x08'; zeros 6
  printf '\x01\x00\x01\x00'; zeros 12
  for _ in {1..64}; do printf '\x00'; printf '\xff%.0s' {1..15}; zeros 8; done
  zeros 512; printf '\x02\x01\x02\x02\x00\x02'
} > all-bad.plan

# 16 components with 16 locations and ports, and 64 variables; variable n starts at n - 2147483648. Move 0 takes each component from
# location 0 through port 15 to location 15; move 1 names a port that no transition uses.
{
  printf 'PLAN\x10\x00\x00\x00\x72\x03\x10\x00\x40\x00\x10\x00\x02\x00\x00\x00\x01\x00\x00\x00\x00\x00'
  printf '\x30\x00\x70\x00\x70\x02\x30\x03\x60\x03\x70\x03\x70\x03\x72\x03'; zeros 6
  printf '\x10\x00\x10\x00%.0s' {1..16}
  for n in {0..63}; do printf "\\x$(printf %x $((n % 16)))\\x00\\x00\\x00\\x$(printf %x "$n")\\x00\\x00\\x80"; done
  for n in {0..15}; do printf "\\x$(printf %x "$n")\\x00\\x0f\\x0f"; zeros 8; done
  printf '\x0f%.0s' {1..16}; zeros 8
  printf '\xff%.0s' {1..15}; printf '\x00'; zeros 8
  zeros 16; printf '\x02\x00'
} > widest.plan

# Images.
: > empty.image
head -c 311 start.image > 11-byte-less.image
{ cat start.image; zeros 1; } > 11-byte-more.image
{ cat start.image; zeros 100000; } > 11-far-longer.image
cp 11-far-longer.image long.image
image 12-letters.image 0 79
image 12-form.image 4 02
image 12-components.image 5 02
image 12-variables.image 6 00
image 12-interactions.image 7 04
image 12-plan-number.image 15 01
image 13-oracle-bad.image 8 01
image 13-oracle-state.image 8 02
image 13-unused-oracle.image 11 01
image 13-location.image 24 03
image 13-last-port.image 40 03
image 13-unused-location.image 39 01
image 13-unused-last-port.image 55 00
image 13-unused-value.image 311 80
image 14-safe-move.image 16 02
image 14-not-enabled.image 16 04
image 14-past-interactions.image 16 08
image 14-last-bit.image 23 80
image 14-one-of-two.image 16 03
image 13-and-14.image 24 03 , 16 02
wet_image 13-added-state.image 9 03
wet_image 13-added-bad.image 9 02
wet_image 13-added-unused.image 10 01
image marked.image 16 01
image tared.image 24 01 , 40 00 , 56 28 23
# Lanes of old-mark.plan, with a mark on move 1 and without.
image old-mark.image 16 02 , 56 ff ff ff 7f
image old-unmarked.image 56 ff ff ff 7f

# Lanes that have turns, for each script its own: they are saved where they were read. The sample lane at its start, tared and with a mark; among sound
# ones three damaged ones; and nine alike.
lanes() {
  local script=$1 n=0 from
  shift
  for from; do cp "$from.image" "$script-$n.image"; n=$((n + 1)); done
}
lanes round start tared marked
lanes held start start start
lanes damaged start 12-letters 13-location 14-safe-move tared
lanes nine start start start start start start start start start
lanes kept start tared
lanes waits start start
lanes full start start

# Logs of the sample lane, 2 bytes an entry.
log() {
  local to=$1 bytes=""
  shift
  for byte; do bytes+="\\x$byte"; done
  printf "$bytes" > "$to"
}
: > empty.log
log two-rounds.log 01 00 00 00 02 00 01 00 00 00 02 00
log first-move.log 01 00
log 21-one-byte.log 01
log 21-cut-off.log 01 00 00 00 02
log 16-next.log 01 00 03 00
log 16-high-byte.log 01 01
log 16-greatest.log 01 00 00 00 02 00 ff ff
log 17-at-once.log 02 00
log 17-later.log 01 00 00 00 00 00 02 00
log bad-at-once.log 00 00
log bad-later.log 01 00 00 00 02 00 00 00 02 00
zeros 16777216 > longest.log
zeros 16777217 > too-long.log
