# Files that grow and shrink while they are followed; sourced by host/check.
# shellcheck shell=sh disable=SC2154 # variables of host/check

# What follow prints of a whole file: the entries as they come, then the answer.
"$psp" list mug.psp > listed
{ sed 1d listed; sed -n 1p listed; } > expected

: > growing.psp
"$psp" follow growing.psp --idle 3 > followed 2> said &
follower=$!
for piece in 0 1 2 3 4 5 6 7; do
  dd if=mug.psp bs=1000 skip=$piece count=1 >> growing.psp 2> /dev/null
  sleep 0.3
  [ $piece -ne 4 ] || early=$(wc -l < followed)
done
wait $follower
same "follow: status of a file that grows" 0 $?
same "follow: entries and answer" "$(cat expected)" "$(cat followed)"
same "follow: complete so far" "psp: complete so far: 7769 bytes, 54 entries" "$(cat said)"
[ "$early" -gt 0 ] && [ "$early" -lt 54 ]
same "follow: entries come while the file grows" 0 $?

cp mug.psp growing.psp
"$psp" follow growing.psp --idle 20 > followed 2> said &
follower=$!
sleep 1
: > growing.psp
wait $follower
same "follow: status of a file that shrinks" 2 $?
same "follow: a file that shrinks" "psp: cannot read \"growing.psp\": it was shortened or replaced" "$(tail -n 1 said)"

cp mug.psp growing.psp
"$psp" follow growing.psp --idle 20 > followed 2> said &
follower=$!
sleep 1
cp mug.psp other.psp && mv other.psp growing.psp
wait $follower
same "follow: status of a file that is replaced" 2 $?

# Entries that were printed stand, also when the file outgrows the limit.
cp grey521.psp growing.psp
"$psp" follow growing.psp --idle 20 > followed 2> said &
follower=$!
sleep 1
sized growing 1073741825
wait $follower
same "follow: status of a file over the limit" 1 $?
same "follow: the answer over the limit" "answer 1 place 0 entries 0" "$(sed -n 5p followed)"

# The answer is that of the file as it stands at the end: here its version is overwritten after it was read.
cp mug.psp growing.psp
"$psp" follow growing.psp --idle 20 > followed 2> said &
follower=$!
sleep 1
put growing.psp 32 '\005'
wait $follower
same "follow: status of a file that is rewritten" 1 $?
same "follow: the answer of a file that is rewritten" "answer 4 place 32 entries 0" "$(sed -n '$p' followed)"
same "follow: a file that is rewritten" "psp: the file was changed at 32 after it was read; it is listed again
psp: entries from 0 on no longer stand as printed" "$(sed -n 2,3p said)"

# A change that the time of the last change does not tell is seen when the whole file is read again.
cp mug.psp growing.psp
cp -p growing.psp dated.psp
"$psp" follow growing.psp --idle 2 > followed 2> said &
follower=$!
sleep 1
put growing.psp 316 'x'
touch -r dated.psp growing.psp
wait $follower
same "follow: status of a file that is rewritten unseen" 1 $?
same "follow: the answer of a file that is rewritten unseen" "answer 5 place 316 entries 3" "$(sed -n '$p' followed)"
same "follow: entries of a file that is rewritten unseen" "psp: entries from 3 on no longer stand as printed" "$(sed -n 3p said)"

# One that grows and is rewritten at once: the entries that no longer stand are printed again.
head -c 5000 mug.psp > growing.psp
"$psp" follow growing.psp --idle 2 > followed 2> said &
follower=$!
sleep 1
dd if=mug.psp bs=1000 skip=5 2> /dev/null >> growing.psp
put growing.psp 92 '\012'
wait $follower
same "follow: status of a file that grows and is rewritten" 0 $?
same "follow: entries of a file that grows and is rewritten" "$("$psp" list growing.psp | sed '1d;2d')" "$(sed -n '/^1 skip .* 10$/,$p' followed | sed '$d')"

# Room that was taken before, and is filled piece by piece.
: > growing.psp
sized growing 7769
"$psp" follow growing.psp --idle 3 > followed 2> said &
follower=$!
sleep 1
for piece in 0 1 2 3 4 5 6 7; do
  dd if=mug.psp of=growing.psp bs=1000 skip=$piece seek=$piece count=1 conv=notrunc 2> /dev/null
  sleep 0.4
  [ $piece -ne 4 ] || early=$(wc -l < followed)
done
wait $follower
same "follow: status of a file that is filled" 0 $?
same "follow: entries and answer of a file that is filled" "$(cat expected)" "$(cat followed)"
same "follow: filling is told once" "psp: zeros stand from 0 on; they may be filled yet, and the file is followed on
psp: complete so far: 7769 bytes, 54 entries" "$(cat said)"
[ "$early" -gt 0 ] && [ "$early" -lt 54 ]
same "follow: entries come while the file is filled" 0 $?

: > growing.psp
sized growing 7769
"$psp" follow growing.psp --idle 0.5 > followed 2> said
same "follow: status of a file that is never filled" 1 $?
same "follow: the answer of a file that is never filled" "answer 3 place 0 entries 0" "$(cat followed)"

# A refusal that more bytes cannot change is told while they still come.
cp version.psp growing.psp
(
  bytes=0
  while [ $bytes -lt 2000000 ]; do
    printf x
    bytes=$((bytes + 1))
  done >> growing.psp
) &
writer=$!
sleep 0.5
"$psp" follow growing.psp > followed 2> said
same "follow: status of a refused file that grows" 1 $?
kill $writer 2> /dev/null
same "follow: a refused file that grows is not waited for" 0 $?
wait $writer 2> /dev/null
same "follow: the answer of a refused file that grows" "answer 4 place 32 entries 0" "$(cat followed)"

# A pipe is refused and not waited for.
rm -f pipe.psp
mkfifo pipe.psp
"$psp" follow pipe.psp > followed 2> said &
follower=$!
sleep 1
[ -s said ] || kill $follower
wait $follower
same "follow: status of a pipe" 2 $?
same "follow: a pipe" 'psp: wrong use: follow wants a file that can grow, no pipe, folder or device: "pipe.psp"' "$(cat said)"
rm -f pipe.psp
