#!/usr/bin/env bash
# Runs the built loginctl, and compares what it prints, to the byte, and its status.
#
# Each run of tests/replay is four files: NAME.args has its words on one line, NAME.script is its input, NAME.out what it
# must print, and NAME.status its exit status. Then come runs that are made here: words and streams of the outside that no
# file can hold, `frames` on streams that are too long to keep, whole pieces of 16,777,215 bytes, and `replay` on the
# longest script, one that is too long, ones of many accounts, a login cut at every place, and random ones. What the ones
# with statements must print is restated by tests/restated.
#
# The last line is `N passed, M failed`. The program is proved and built first, or, with the word `--built`, was just now by
# `rt ci`; where there is none nothing is run. A run of which a file is missing has failed, and so has the whole where
# fewer runs are stored than there were.
set -u
top=$(cd "$(dirname "$0")/.." && pwd) || exit 1
runs=$top/tests/replay
program=$top/crates/loginctl/out/loginctl
folder=$(mktemp -d) || exit 1
trap 'rm -rf "$folder"' EXIT
printed=$folder/printed
expected=$folder/expected
# So many runs are stored at least: none goes unnoticed.
least=157
passed=0
failed=0

fails() {
  failed=$((failed + 1))
  echo "$1"
}

# Proves and builds the program, unless the word `--built` says that a check that passed has just built it.
builds() {
  [ "${1-}" = --built ] || (cd "$top/crates/loginctl" && rt run -- frames </dev/null) >"$folder/built" 2>&1
}

if ! builds "$@" || ! [ -x "$program" ]; then
  [ ! -e "$folder/built" ] || cat "$folder/built"
  echo "there is no built loginctl"
  echo "0 passed, 1 failed"
  exit 1
fi

# Compares the status and what was printed with what they must be: judge NAME STATUS WANTED-STATUS WANTED-FILE
judge() {
  if [ "$2" != "$3" ]; then
    fails "differs: $1, status $2 in place of $3"
  elif ! cmp -s "$printed" "$4"; then
    fails "differs: $1, in what is printed"
  else
    passed=$((passed + 1))
  fi
}

# Runs the program on the standard input, and judges what it prints: prints NAME WANTED-STATUS WANTED-FILE WORD..
prints() {
  local name=$1 wanted=$2 file=$3
  shift 3
  timeout 60 "$program" "$@" >"$printed"
  judge "$name" $? "$wanted" "$file"
}

stored=0
for file in "$runs"/*.*; do
  run=${file%.*}
  [ "$file" = "$run.script" ] || [ -e "$run.script" ] || fails "no input: $(basename "$file")"
  [ "$file" = "$run.script" ] || continue
  stored=$((stored + 1))
  if ! [ -e "$run.args" ] || ! [ -e "$run.out" ] || ! [ -e "$run.status" ]; then
    fails "not whole: $(basename "$run")"
    continue
  fi
  words=()
  read -r -a words <"$run.args"
  prints "$(basename "$run")" "$(cat "$run.status")" "$run.out" ${words[@]+"${words[@]}"} <"$file"
done
[ "$stored" -ge "$least" ] || fails "only $stored stored runs in $runs, of at least $least"

# Words and streams that no stored run can have.
prints word-that-is-not-text 2 "$runs/no-words.out" login --socket none --user $'nat\xff' </dev/null
echo linkfault >"$expected"
prints no-server 4 "$expected" login --socket "$folder/none" --user nat </dev/null
# Nothing is printed where the input can't be read, nor on an output that takes nothing.
: >"$expected"
: >"$printed"
prints input-that-fails 4 "$expected" replay <"$folder"
prints input-that-is-closed 4 "$expected" replay <&-
"$program" replay <"$runs/empty.script" >/dev/full
judge output-that-is-full $? 5 "$expected"
"$program" frames <"$runs/frames-empty.script" >/dev/full
judge frames-with-a-full-output $? 5 "$expected"
"$program" replay --generate 7 </dev/null >/dev/full
judge large-run-with-a-full-output $? 5 "$expected"
"$program" login --socket "$folder/none" --user nat </dev/null >/dev/full
judge login-with-a-full-output $? 5 "$expected"

# A large run reads no input.
prints large-run-without-input 0 "$runs/generate-7.out" replay --generate 7 <&-
prints large-run-with-input-that-fails 0 "$runs/generate-7.out" replay --generate 7 <"$folder"

# Prints a header and that many zero bytes: piece LENGTH ID, the length in six hexadecimal digits, low first.
piece() {
  printf "\\x${1:0:2}\\x${1:2:2}\\x${1:4:2}\\x$2"
  head -c $((16#${1:4:2}${1:2:2}${1:0:2})) /dev/zero
}

# Judges what `frames` prints of the standard input: frames_prints NAME STATUS LINE..
frames_prints() {
  local name=$1 wanted=$2
  shift 2
  printf '%s\n' "$@" >"$expected"
  prints "$name" "$wanted" "$expected" frames
}

frames_prints frames-whole-piece 0 'packet 1 at 0 seq 0 length 16777215' 'end 1' \
  < <(piece ffffff 00; piece 000000 01)
frames_prints frames-wrong-id 3 'bad packet at 16777219' \
  < <(piece ffffff 00; piece 000000 05)
frames_prints frames-three-pieces 0 'packet 1 at 0 seq 254 length 50331645' \
  'packet 2 at 50331661 seq 7 length 3' 'end 2' \
  < <(piece ffffff fe; piece ffffff ff; piece ffffff 00; piece 000000 01; piece 030000 07)
frames_prints frames-too-large 3 'packet 1 at 0 seq 9 length 1' 'bad packet at 50331662' \
  < <(piece 010000 09; piece ffffff 00; piece ffffff 01; piece ffffff 02; piece 010000 03)
frames_prints frames-cut-in-second-piece 3 'packet 1 at 0 seq 9 length 1' 'bad packet at 5' \
  < <(piece 010000 09; piece ffffff 00; printf '\x00\x00')

# A script of so many bytes: a line that says nothing, and `end`.
filled() {
  printf '#'
  head -c $(($1 - 6)) /dev/zero | tr '\0' x
  printf '\nend\n'
}

echo 'end 0' >"$expected"
prints longest-script 0 "$expected" replay < <(filled 16777216)
echo 'bad line 0' >"$expected"
prints too-long-script 3 "$expected" replay < <(filled 16777217)

# 20,000 accounts with users of five digits, and the last of them logs in with an empty answer, for an empty password
accounts() {
  seq 1 20000 | awk '{ user = sprintf("%05d", $1); gsub(/[0-9]/, "3&", user); print "account " user " -" }'
  printf 'open 1\nbytes 1 %s%s%s\nrun 1\nend\n' \
    3d0000010082080000000001ff0000000000000000000000000000000000000000000000 323030303000 \
    006d7973716c5f6e61746976655f70617373776f726400
}
{
  head -n 1 "$runs/empty.out"
  printf 'entry 1 observe 3230303030\nentry 2 attempt 3230303030 opened\nsend 1 2 00000002000000\nend 2\n'
} >"$expected"
prints many-accounts 0 "$expected" replay < <(accounts)

# Judges what `replay` prints of a script by what is restated of it: restated NAME SCRIPT
restated() {
  "$top/tests/restated" print <"$2" >"$expected" || fails "not restated: $1"
  prints "$1" 0 "$expected" replay <"$2"
}

# 1,000 accounts, each with a digest that its first login leaves and its second one uses, all of which FLUSH PRIVILEGES
# clears: the third login of each is asked for the whole password again.
digests() {
  seq 1 1000 | sed "s/.*/admin CREATE USER 'u&'@'localhost' IDENTIFIED BY 'p&'/"
  seq 1 2000 | awk '{ digits = ($1 - 1) % 1000 + 1; gsub(/./, "3&", digits)
    printf "client %d 1028a200 75%s 70%s\nrun %d\n", $1, digits, digits, $1 }'
  echo 'admin FLUSH PRIVILEGES'
  seq 2001 3000 | awk '{ digits = $1 - 2000; gsub(/./, "3&", digits)
    printf "client %d 1028a200 75%s 70%s\ndown %d 100\nup %d 200\nstep %d\n", $1, digits, digits, $1, $1, $1 }'
  echo end
}
digests >"$folder/script"
restated flush-clears-1000-digests "$folder/script"
[ "$(grep -c '^send .* 2 0103$' "$expected")" = 1000 ] && [ "$(grep -c '^send .* 2 0104$' "$expected")" = 2000 ] ||
  fails 'not 1000 fast logins between 2000 others: flush-clears-1000-digests'

# Random scripts of sessions, statements and clock readings.
for ((seed = 1; seed <= 100; seed++)); do
  "$top/tests/restated" random $seed >"$folder/script"
  restated random-$seed "$folder/script"
done

# The bytes of a login in two pieces, cut at every place.
bytes=$(sed -n 's/^bytes 1 //p' "$runs/empty.script")
[ ${#bytes} -gt 2 ] || fails "no line 'bytes 1' to cut in empty.script"
for ((cut = 2; cut < ${#bytes}; cut += 2)); do
  prints "cut-at-$((cut / 2))" 0 "$runs/empty.out" replay \
    < <(sed "s/^bytes 1 .*/bytes 1 ${bytes:0:cut}\nbytes 1 ${bytes:cut}/" "$runs/empty.script")
done

echo "$passed passed, $failed failed"
[ "$failed" = 0 ]
