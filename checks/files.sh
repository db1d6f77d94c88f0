#!/usr/bin/env bash
# Runs the program on links, devices, files without permission, a full disk, and files that it shouldn't overwrite. Prints each
# result that is wrong. Needs a C compiler, and the program that `rt run` builds in crates/segtool/out, or another given program.
# If root starts this, the program runs as a user without rights, because root may also write to a write-protected folder.
set -u
here=$(cd "$(dirname "$0")" && pwd)
program=$(realpath "${1:-$here/../crates/segtool/out/segtool}") || exit 2
[ -x "$program" ] || { echo "no program: $program" >&2; exit 2; }
work=$(mktemp -d)
trap 'chmod -R u+w "$work"; rm -rf "$work"' EXIT
umask 022

as_user=()
if [ "$(id -u)" = 0 ]; then
  as_user=(setpriv --reuid=65534 --regid=65534 --clear-groups)
fi
chmod 755 "$work"
install -m 755 "$program" "$work/segtool"
install -m 644 "$here/../examples/counter.image" "$work/image"
install -m 644 "$here/../examples/increment.client" "$work/client"
install -m 644 "$here/../examples/increment.text" "$work/text"
cc -O1 -shared -fPIC -o "$work/fail.so" "$here/fail.c" -ldl || exit 2
chmod 755 "$work/fail.so"

# the image that the client saves: its version, at 8, is 2, and its number, at 720, is 42
cp "$work/image" "$work/saved"
printf '\2' | dd of="$work/saved" bs=1 seek=8 conv=notrunc status=none
printf '\52' | dd of="$work/saved" bs=1 seek=720 conv=notrunc status=none

cases=0
failed=0

# begins a case with this name, in a new folder with the image
case_of() {
  name=$1
  cases=$((cases + 1))
  now=$work/$cases
  mkdir "$now"
  cp "$work/image" "$now/image"
  cd "$now" || exit 2
  own
}

# gives the files of the case so far to the user
own() {
  if [ "$(id -u)" = 0 ]; then
    chown -hR 65534:65534 "$now"
  fi
}

# runs a command, and prints the given message if it fails
expect() {
  local what=$1
  shift
  if ! "$@"; then
    failed=$((failed + 1))
    echo "$name: $what (status $status, error output: $(cat "$work/err"))"
  fi
}

segtool() {
  status=0
  "${as_user[@]}" "$work/segtool" "$@" < /dev/null > "$work/out" 2> "$work/err" || status=$?
}

# runs the client on the image of the case, and saves to this file; takes more arguments
save_to() {
  segtool run image "$1" "$work/client" "${@:2}"
}

has_status() { [ "$status" = "$1" ]; }
is_silent() { [ ! -s "$work/err" ]; }
is_link() { [ -L "$1" ] && [ "$(readlink "$1")" = "$2" ]; }
is_plain() { [ -f "$1" ] && [ ! -L "$1" ]; }
is_missing() { [ ! -e "$1" ] && [ ! -L "$1" ]; }
has_mode() { [ "$(stat -c %a "$1")" = "$2" ]; }
says() { printf '%s\n' "$1" | cmp -s - "$2"; }
holds() { [ "$(find "$1" -mindepth 1 -maxdepth 1 -printf '%f\n' | LC_ALL=C sort | tr '\n' ' ')" = "$2" ]; }

saved() {
  expect "failed" has_status 0
  expect "wrote to the error output" is_silent
  expect "$1 hasn't the saved image" cmp -s "$work/saved" "$1"
}

# the command reported which file failed, and the image is unchanged
refused() {
  expect "not refused" has_status 3
  expect "not told of as $1" says "file $1" "$work/err"
  expect "the image has changed" cmp -s "$work/image" image
}

# the command, with --explain, reported which file failed and why
explained() {
  expect "not refused" has_status 3
  expect "not told of as $1, which $2" says "file $1"$'\n'"\`$1\` $2" "$work/err"
}

# nothing was printed, and the client, its text, the image and the notes of the case are unchanged
kept() {
  expect "something was printed" [ ! -s "$work/out" ]
  expect "the image has changed" cmp -s "$work/image" image
  expect "the client has changed" cmp -s "$work/client" client
  expect "the text has changed" cmp -s "$work/text" text
  expect "the notes have changed" says notes notes
}

# begins a case whose folder also has the client, its text and notes
case_with_files() {
  case_of "$1"
  cp "$work/client" client
  cp "$work/text" text
  echo notes > notes
  own
}

case_of "a file where none was"
save_to fresh
saved fresh
expect "other permissions than the mask leaves" has_mode fresh 644
expect "something else is left" holds . "fresh image "

case_of "a file where none was, under a mask"
umask 077
save_to fresh
umask 022
saved fresh
expect "other permissions than the mask leaves" has_mode fresh 600

case_of "the image itself"
save_to image
saved image
expect "something else is left" holds . "image "

case_of "planted links"
echo precious > victim
for beside in image.new image.{1..3}.new; do ln -s victim "$beside"; done
own
save_to image
saved image
expect "the image is a link" is_plain image
expect "the victim has changed" says precious victim
expect "a planted link is gone" is_link image.1.new victim
expect "something else is left" holds . "image image.1.new image.2.new image.3.new image.new victim "

case_of "planted links that lead nowhere"
for beside in image.new image.{1..3}.new; do ln -s made "$beside"; done
own
save_to image
saved image
expect "the image is a link" is_plain image
expect "a file was made through a link" is_missing made

case_of "a planted file and a planted folder"
echo precious > image.1.new
mkdir image.2.new
own
save_to image
saved image
expect "the file has changed" says precious image.1.new
expect "something else is left" holds . "image image.1.new image.2.new "

case_of "all names taken"
echo precious > victim
for beside in image.{1..100}.new; do ln -s victim "$beside"; done
own
save_to image
refused image
expect "the victim has changed" says precious victim

for mode in 600 640 666 755 444; do
  case_of "permissions $mode"
  chmod "$mode" image
  save_to image
  saved image
  expect "other permissions" has_mode image "$mode"
done

case_of "permissions of a link's target"
mv image target
chmod 600 target
ln -s target image
own
save_to image
saved target
expect "other permissions" has_mode target 600
expect "the link is gone" is_link image target

case_of "a link to another folder, where alone a file can be made"
mkdir there links
mv image there/image
ln -s ../there/image links/image
ln -s links/image image
own
chmod 555 . links
save_to image
saved there/image
expect "the first link is gone" is_link image links/image
expect "the second link is gone" is_link links/image ../there/image
expect "something else is left" holds there "image "
chmod 755 . links

case_of "a link as the file, and a planted link beside its target"
echo precious > victim
mkdir there
ln -s there/out out
echo SEGIMAGE old > there/out
for beside in out.new out.1.new; do ln -s ../victim "there/$beside"; done
own
save_to out
saved there/out
expect "the target is a link" is_plain there/out
expect "the victim has changed" says precious victim

case_of "a link that leads nowhere"
ln -s nowhere out
own
save_to out
refused out
expect "the link is gone" is_link out nowhere
expect "something else is left" holds . "image out "

case_of "links in a circle"
ln -s second first
ln -s first second
own
save_to first
refused first
expect "a link is gone" is_link first second
expect "something else is left" holds . "first image second "

case_of "another name of the file"
echo SEGIMAGE old > out
ln out other
own
save_to out
saved out
expect "the other name lost the old bytes" says "SEGIMAGE old" other

case_of "a folder that may not be written"
chmod 555 .
save_to image
refused image
save_to fresh
refused fresh
expect "something is left" holds . "image "
chmod 755 .

case_of "a folder that may not be read"
chmod 333 .
save_to image
refused image
chmod 755 .
expect "something is left" holds . "image "

case_of "a folder as the file"
mkdir out
own
save_to out
refused out
expect "something is left" holds . "image out "
expect "something is left in it" holds out ""

case_of "no folder"
save_to none/out
refused none/out
expect "something is left" holds . "image "

case_of "a full device"
save_to /dev/full
refused /dev/full
expect "no device any more" [ -c /dev/full ]

case_of "a link to a full device"
ln -s /dev/full out
own
save_to out
refused out
expect "the link is gone" is_link out /dev/full

case_of "a file that is larger than it may be"
trap '' XFSZ
limit=$(ulimit -f)
ulimit -Sf 1
segtool new image 4096 best tree
ulimit -Sf "$limit"
trap - XFSZ
refused image
expect "something is left" holds . "image "

case_of "the order of calls"
echo SEGIMAGE old > image2
own
install -m 666 /dev/null "$work/calls"
CALLS=$work/calls LD_PRELOAD=$work/fail.so save_to image2
saved image2
expect "not in this order: permissions, file to disk, renamed, folder to disk" \
  says "permissions sync-file rename sync-folder" <(paste -sd ' ' "$work/calls")

for call in permissions sync-file rename; do
  case_of "a call that fails: $call"
  FAIL=$call LD_PRELOAD=$work/fail.so save_to image
  refused image
  expect "something is left" holds . "image "
done

case_of "a call that fails: sync-folder"
FAIL=sync-folder LD_PRELOAD=$work/fail.so save_to image
expect "no error" has_status 3
expect "not told of" says "file image" "$work/err"
expect "not the new image" cmp -s "$work/saved" image
expect "something is left" holds . "image "

case_of "the standard output as a pipe"
status=0
# the user owns the pipe
"${as_user[@]}" bash -c '"$@" | cat; exit "${PIPESTATUS[0]}"' bash \
  "$work/segtool" run image /dev/stdout "$work/client" > "$work/out" 2> "$work/err" || status=$?
expect "failed" has_status 0
expect "not the output and then the image" cmp -s <(echo 42; cat "$work/saved") "$work/out"

case_of "a named pipe"
mkfifo out
own
timeout 20 cat out > got &
save_to out
wait $!
saved got
expect "no pipe any more" [ -p out ]

is_input="is a file that the command reads, under this name or another, so it wasn't written; name another file"

# expects the refusal of a file with another format: the file, the format, and the first bytes of the format
other_format() {
  explained "$1" "isn't empty and isn't $2, which begins with \`$3\`, so nothing was written over it; name another file, or add --force"
}

case_with_files "clients under other names, as the file to write"
mkdir there
ln -s client link
ln -s ../link there/link
ln client hard
own
for out in client ./client there/../client "$now/client" link there/link hard there/../hard; do
  segtool run image "$out" client --explain
  explained "$out" "$is_input"
  kept
  segtool run image "$out" "$now/client" --force
  refused "$out"
  kept
done
segtool run image client text hard
refused client
kept
expect "something else is left" holds . "client hard image link notes text there "

case_with_files "the input under other names, as the file to write"
ln -s notes link
ln notes hard
own
for out in notes ./notes link hard; do
  segtool run image "$out" client --input notes --force --explain
  explained "$out" "$is_input"
  kept
done

case_with_files "the text under other names, as the file to write"
ln -s text link
ln text hard
own
for out in text ./text link hard; do
  segtool asm text "$out" --force --explain
  explained "$out" "$is_input"
  kept
done

case_with_files "the image under other names, as the picture"
ln -s image link
ln image hard
own
for out in image ./image link hard; do
  segtool map image --svg "$out" --force --explain
  explained "$out" "$is_input"
  kept
done

case_of "the image under another name, as the file to write"
ln image hard
own
save_to hard
saved hard
expect "the image has changed" cmp -s "$work/image" image

case_with_files "a file that isn't an image, as the file to write"
ln -s notes link
own
for out in notes link; do
  segtool run image "$out" client --explain
  other_format "$out" "an image" SEGIMAGE
  kept
  segtool new "$out" 1024 seq flat --explain
  other_format "$out" "an image" SEGIMAGE
  kept
done
segtool run image text client
refused text
kept
expect "something else is left" holds . "client image link notes text "
save_to link --force
saved notes
expect "the link is gone" is_link link notes
segtool new text 1024 seq flat --force
expect "not made" [ "$(stat -c %s text)" = 1024 ]

case_with_files "a file that isn't a client, as the file to write"
segtool asm text notes --explain
other_format notes "a client" SEGC
kept
segtool asm text image --explain
other_format image "a client" SEGC
kept
segtool asm text notes --force
expect "not written" cmp -s "$work/client" notes
: > client
segtool asm text client
expect "not written over an empty file" cmp -s "$work/client" client
segtool asm text client
expect "not written over a client" has_status 0

case_with_files "a file that isn't a picture, as the picture"
segtool map image --svg notes --explain
other_format notes "an SVG picture" "<svg "
kept
segtool map image --svg client --explain
other_format client "an SVG picture" "<svg "
kept
segtool map image --svg picture
cp picture first
segtool map image --svg picture
expect "not written over a picture" has_status 0
segtool map image --svg notes --force
expect "not written" cmp -s first notes

case_of "an image and an empty file, as the file to write"
echo SEGIMAGE old > other
: > empty
own
save_to other
saved other
save_to empty
saved empty
segtool new other 1024 seq flat
expect "not made over an image" [ "$(stat -c %s other)" = 1024 ]

case_with_files "a file that may not be read, as the file to write"
chmod 200 notes
save_to notes --explain
explained notes "may not be read: its permissions or those of its folders don't allow it"
chmod 600 notes
kept
chmod 200 notes
save_to notes --force
chmod 600 notes
saved notes

case_of "a device as the input and the file to write"
save_to /dev/null --input /dev/null
expect "failed" has_status 0
expect "not the output" says 42 "$work/out"

case_of "reasons why a file isn't read"
mkdir folder closed
cp image closed/image
ln -s nowhere link
truncate -s 1048577 long
truncate -s 1048576 longest
own
for name in none link none/image image/none; do
  segtool check "$name" --explain
  explained "$name" "doesn't exist, or is a link to a file that doesn't exist"
done
segtool check folder --explain
explained folder "is a folder, and should be a file"
chmod 000 closed
segtool check closed/image --explain
explained closed/image "may not be read: its permissions or those of its folders don't allow it"
chmod 755 closed
chmod 000 closed/image
segtool check closed/image --explain
explained closed/image "may not be read: its permissions or those of its folders don't allow it"
limits="an image may have 2^30 bytes, and a client, a text or the input 2^20"
for words in "print long" "verify image long" "asm long out" "run image out $work/client --input long"; do
  # shellcheck disable=SC2086
  segtool $words --explain
  explained long "has more than 1048576 bytes; $limits"
done
segtool print longest
expect "not read whole" says "fault 20 0" "$work/err"
truncate -s 1073741825 large
own
segtool check large --explain
explained large "has more than 1073741824 bytes; $limits"
rm large

case_of "reasons why a file isn't written"
mkdir folder
ln -s nowhere link
ln -s second first
ln -s first second
own
for name in none/out link; do
  save_to "$name" --explain
  explained "$name" "can't be made: its folder doesn't exist, or it is a link to a file that doesn't exist"
done
save_to folder --explain
explained folder "is a folder, and should be a file"
save_to first --explain
explained first "couldn't be read or written: the system failed for a rare reason, such as a broken disk or links in a circle"
for mode in 555 333; do
  chmod "$mode" .
  save_to image --explain
  chmod 755 .
  explained image "may not be written: its folder should allow reading and writing, since a new file is made there and renamed; a device or a pipe should allow writing"
done
full="couldn't be written whole: the disk is full, or a limit on the size of files is reached"
save_to /dev/full --explain
explained /dev/full "$full"
trap '' XFSZ
limit=$(ulimit -f)
ulimit -Sf 1
segtool new image 4096 best tree --explain
ulimit -Sf "$limit"
trap - XFSZ
explained image "$full"

case_of "an output that fails"
status=0
"${as_user[@]}" "$work/segtool" run image image "$work/client" --explain > /dev/full 2> "$work/err" || status=$?
expect "no error" has_status 3
expect "not told of" says "file -"$'\n'"the output couldn't be written, and the run ended there; the image as it was then was saved, unless its file failed too" "$work/err"
expect "not the new image" cmp -s "$work/saved" image
for extra in 800 816; do
  status=0
  "${as_user[@]}" "$work/segtool" grow image 16 > /dev/full 2> "$work/err" || status=$?
  expect "no error" has_status 3
  expect "not told of" says "file -" "$work/err"
  expect "not grown" [ "$(stat -c %s image)" = "$extra" ]
done

if [ "$(id -u)" = 0 ]; then
  case_of "a file of another user, written by root"
  chmod 640 image
  as_user=()
  save_to image
  saved image
  expect "other permissions" has_mode image 640
  expect "another owner" [ "$(stat -c %u:%g image)" = 65534:65534 ]
fi

echo "$cases cases, $failed failures"
[ "$failed" = 0 ]
