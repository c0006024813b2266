#!/bin/bash
# ./van and ./vanlab, which is a link to it: the proved program runs where no source is newer, else an unproved one, which is
# built first where it isn't current. ./prove proves what isn't, and may be stopped. What is missing is said in one sentence,
# and the next call goes on. Shown with stand-ins for the kit: an `rt` that writes a program, and a build that writes one
# which answers with its name, its words and its input.
# The last line is 'N passed, M failed'.
set -u
cd "$(dirname "$0")/.." || exit 1
unset GATE_RUN # ./test sets it, and prove.py would ask that run which crates are proved
dir=$(mktemp -d)
trap 'chmod -R u+w "$dir"; rm -rf "$dir"' EXIT
passed=0
failed=0

# count STATUS NAME: one more that passed or failed
count() {
  if [ "$1" -eq 0 ]; then
    passed=$((passed + 1))
  else
    failed=$((failed + 1))
    echo "launcher: $2"
  fi
}

# program SAYS: a program that says this, its words and its input, and ends with status 7
program() {
  printf '%s\n' '#!/bin/bash' "if [ \"\$1\" = --version ]; then echo van 0; exit; fi" "echo \"$1 \$*: \$(cat)\"" 'exit 7'
}

# make: a repository with nothing but the launcher, a command of each kind, and stand-ins for the kit
make() {
  chmod -R u+w "$dir"
  rm -rf "${dir:?}"/*
  mkdir -p "$dir"/top/crates/{van,vanlab,x12_mailbox,x12_numbers}/src "$dir"/top/checks/tools "$dir"/{bin,empty,tmp}
  for tool in bash basename cat dirname find grep readlink; do ln -s "$(command -v $tool)" "$dir/empty/$tool"; done
  ln -s "$(python3 -c 'import sys; print(sys.executable)')" "$dir/empty/python3"
  cp -P van vanlab prove "$dir/top"
  cp checks/tools/{build,prove,crates}.py "$dir/top/checks/tools"
  printf '%s\n' 'x12_numbers:' 'x12_mailbox: x12_numbers' 'van: x12_mailbox' 'vanlab: x12_numbers' >"$dir/top/crates.txt"
  for name in van vanlab x12_mailbox x12_numbers; do echo 'fn main() {}' >"$dir/top/crates/$name/src/main.rt"; done
  printf '    Row {\n        name: "init",\n' >"$dir/top/crates/x12_mailbox/src/main.rt"
  touch "$dir/top/crates/van/src/records.rt"
  # the build: it counts, does what $dir/how says, and writes a program
  cat >"$dir/top/checks/tools/unproved.py" <<END
import os, subprocess
class Unbuilt(Exception):
    pass
def build_program(crate, to):
    with open("$dir/builds", "a") as log:
        kind = "files" if "kept" not in open(crate.folder + "/src/records.rt").read() else crate.name
        log.write(kind + "\\n")
    if os.path.exists("$dir/how"):
        exec(open("$dir/how").read())
    subprocess.run(["bash", "$dir/write", kind, to], check=True)
END
  declare -f program >"$dir/write"
  echo "program \"\$1\" >\"\$2\"; chmod +x \"\$2\"" >>"$dir/write"
  echo kept >"$dir/top/crates/van/src/records.rt"
  cp "$dir/top/crates/van/src/records.rt" "$dir/top/crates/vanlab/src/records.rt"
  cat >"$dir/bin/rt" <<END
#!/bin/bash
echo "\${PWD##*/} \$1" >>"$dir/proofs"
[ ! -e "$dir/slow" ] || sleep 60
[ ! -e "$dir/refuses" ] || { echo 'a goal is open'; exit 1; }
if [ "\$1" = lib ]; then mkdir -p "out/rlib/\${PWD##*/}.rlib"; touch "out/rlib/\${PWD##*/}.rlib/format"; exit; fi
mkdir -p out
bash "$dir/write" "proved \${PWD##*/}" "out/\${PWD##*/}"
END
  chmod +x "$dir/bin/rt"
  find "$dir/top/crates" "$dir/top/crates.txt" -exec touch -d '1 hour ago' {} +
}

# ends NAME STATUS OUTPUT ERROR BUILDS WORD..: what a call does; the error holds this text, or is empty; the builds so far
ends() {
  local name=$1 status=$2 output=$3 error=$4 builds=$5 said got is
  shift 5
  said=$(printf input | TMPDIR=$dir/tmp PATH=${path:-$dir/bin:$PATH} "$dir/${from:-top}/${launcher:-van}" "$@" 2>"$dir/err")
  got=$?
  is=$(paste -sd' ' "$dir/builds" 2>/dev/null)
  [ $got -eq "$status" ] && [ "$said" = "$output" ] && [ "$is" = "$builds" ] &&
    [ "$(wc -l <"$dir/err")" -eq "$([ -z "$error" ] && echo 0 || echo 1)" ] && grep -qF -- "$error" <(cat "$dir/err"; echo)
  count $? "$name: status $got, said '$said', built '$is', $(cat "$dir/err")"
}
note="isn't proved: it was built in"

make
path=$dir/empty ends 'without the kit' 1 '' "van: it can't be built: the Rattle kit's command rt isn't on the path" '' check
echo 'raise Unbuilt("a type is unknown")' >"$dir/how"
ends 'a build fails' 1 '' "van: it can't be built: a type is unknown" files check
echo 'raise OSError(28, "No space left on device")' >"$dir/how"
ends 'the disk is full' 1 '' "van: it can't be built: there is no space left on the disk" 'files files' check
rm "$dir/how"
ends 'the next call goes on' 7 'files check two words: input' "$note" 'files files files' check 'two words'
[ -z "$(ls -A "$dir/tmp")" ] && [ "$(ls "$dir/top/out/unproved")" = "$(printf 'files\nfiles.lock')" ]
count $? 'a build leaves nothing but its program and its lock'
ends 'the program is current' 7 'files check two words: input' '' 'files files files' check 'two words'
ends 'help of mailboxes needs no build' 7 'files init --help: input' '' 'files files files' init --help
ends 'the version says that it is not proved' 0 'van 0, not proved' '' 'files files files' --version
ends 'a command of mailboxes' 7 'van init a: input' "$note" 'files files files van' init a
ends 'the whole program runs files too' 7 'van check: input' '' 'files files files van' check
launcher=vanlab ends 'vanlab is another program' 7 'vanlab answer: input' 'vanlab: this program' 'files files files van vanlab' answer
mkdir "$dir/link"
ln -s "$dir/top/van" "$dir/link/van"
ln -s "$dir/top/vanlab" "$dir/link/vanlab"
from=link ends 'a link leads to van' 7 'van init: input' '' 'files files files van vanlab' init
from=link launcher=vanlab ends 'a link leads to vanlab' 7 'vanlab answer: input' '' 'files files files van vanlab' answer
touch -d '1 minute' "$dir/top/crates/x12_numbers/src/main.rt"
ends 'a source is newer' 7 'files check: input' "$note" 'files files files van vanlab files' check

make
ln -s /sys "$dir/top/out"
ends 'a read-only clone' 1 '' "$dir/top/out/unproved can't be written: copy the clone to where it can" '' check
rm "$dir/top/out"
: >"$dir/top/out"
ends 'out is no folder' 1 '' "van: it can't be built: $dir/top/out" '' check
rm "$dir/top/out"

make
echo 'import time; time.sleep(60)' >"$dir/how"
TMPDIR=$dir/tmp PATH=$dir/bin:$PATH "$dir/top/van" check </dev/null >/dev/null 2>"$dir/said" &
until [ -s "$dir/builds" ]; do sleep 0.1; done
kill -TERM "$(pgrep -P $! python3)"
wait $!
[ $? -eq 1 ] && [ "$(cat "$dir/said")" = "van: it can't be built: the build was stopped" ] && [ -z "$(ls -A "$dir/tmp")" ]
count $? "a build is stopped half way: $(cat "$dir/said")"
echo 'import time; time.sleep(2)' >"$dir/how"
TMPDIR=$dir/tmp PATH=$dir/bin:$PATH "$dir/top/van" check </dev/null >"$dir/first" 2>/dev/null &
first=$!
until [ "$(wc -l <"$dir/builds")" -eq 2 ]; do sleep 0.1; done
ends 'two at once: the second waits for the first' 7 'files check: input' 'van: another call is building it, and this one waits' 'files files' check
wait $first
[ $? -eq 7 ] && [ "$(cat "$dir/first")" = 'files check: ' ]
count $? "two at once: the first goes on: $(cat "$dir/first")"

# proves STATUS LAST NAME: what ./prove does; how the last line that it says begins
proves() {
  local status
  PATH=${path:-$dir/bin:$PATH} "$dir/top/prove" >"$dir/out" 2>"$dir/err"
  status=$?
  [ $status -eq "$1" ] && [ ! -s "$dir/out" ] && [[ $(tail -1 "$dir/err") == "$2"* ]]
  count $? "$3: status $status, $(cat "$dir/err")"
}
make
path=$dir/empty proves 1 "prove: the Rattle kit's command rt isn't on the path" 'proving without the kit'
touch "$dir/refuses"
proves 1 'a goal is open' 'a proof fails'
[ "$(cat "$dir/proofs")" = 'x12_numbers lib' ]
count $? 'nothing is proved above what is not'
rm "$dir/refuses" "$dir/proofs"
touch "$dir/slow"
PATH=$dir/bin:$PATH "$dir/top/prove" 2>"$dir/err" &
until [ -s "$dir/proofs" ]; do sleep 0.1; done
kill -TERM $!
wait $!
[ $? -eq 130 ] && [ "$(tail -1 "$dir/err")" = 'prove: stopped after 0 of 4 crates; ./prove goes on from here' ]
count $? "a stopped run: $(cat "$dir/err")"
rm "$dir/slow" "$dir/proofs"
proves 0 'prove: 4 crates are proved' 'all is proved'
[ "$(sort "$dir/proofs" | paste -sd,)" = 'van run,vanlab run,x12_mailbox lib,x12_numbers lib' ] && grep -q '^prove: 4 of 4 crates, 0 minutes$' "$dir/err"
count $? "what is proved: $(cat "$dir/proofs" "$dir/err")"
proves 0 'prove: 4 crates are proved' 'nothing is left to prove'
[ "$(wc -l <"$dir/proofs")" -eq 4 ]
count $? 'what is proved is not proved again'
ends 'the proved program runs' 7 'proved van check: input' '' '' check
ends 'the version says that it is proved' 0 'van 0, proved' '' '' --version
touch -d '1 minute' "$dir/top/crates.txt"
ends 'a source is newer than the proved program' 7 'files check: input' "$note" files check
mkdir "$dir/top/crates/x12_numbers/proofs"
touch -d '1 hour ago' "$dir/top/crates.txt"
touch -d '1 minute' "$dir/top/crates/x12_numbers/proofs/Lib.antt"
ends 'a proof is newer: the unproved one is current' 7 'files check: input' '' files check

# The program is told that it is van, whatever its file's name: bash in its place says by what name it was called.
cp "$(command -v bash)" "$dir/top/out/unproved/files"
[[ $("$dir/top/van" run 2>&1) == van:* ]]
count $? 'a program has another name'

echo "$passed passed, $failed failed"
[ "$failed" -eq 0 ]
