#!/usr/bin/env bash
# The statuses of the program and what it says on standard error (docs/COMMANDS.md, "The program"), of which its one run
# in the gate shows the first. It prints nothing where they are right. It looks at the programs that `rt ci` made, by both
# compilers; where there is none, one is made.
set -eu
cd "$(dirname "$0")/.."
program=$PWD/crates/rstore/out/rstore
[ -x "$program" ] || ./rstore </dev/null >/dev/null
work=$(mktemp -d)
trap 'rm -rf "$work"' EXIT
cd "$work"

wrong() {
    echo "tests/status.sh: $1" >&2
    exit 1
}

# ends STATUS SAID WORD..: the program, called by these words, has to end with that status and say that line on standard
# error (none where it is empty, any where it is `*`). Standard input and output are those of the call.
ends() {
    local wanted=$1 line=$2 status=0
    shift 2
    "$@" 2>errors || status=$?
    [ "$status" -eq "$wanted" ] || wrong "'$*' ended with status $status, not $wanted"
    local said
    said=$(cat errors)
    case $line in
        '*') [ -n "$said" ] || wrong "'$*' said nothing" ;;
        *) [ "$said" = "$line" ] || wrong "'$*' said: $said" ;;
    esac
}

# The same of a start that is refused: nothing is read of standard input, no reply is written, the file stays as it was.
refused() {
    local file=$3 before=
    shift 3
    [ ! -f "$file" ] || before=$(cksum "$file")
    ends "$status" "$line" "$@" <<<'create a 2 4' >replies
    [ ! -s replies ] || wrong "'$*' wrote: $(cat replies)"
    [ ! -f "$file" ] || [ "$before" = "$(cksum "$file")" ] || wrong "'$*' changed the file"
}

# The same of one whose file, the last word, can't be opened.
unopens() {
    local line="$line (FILE is ${!#})"
    refused "$@"
}

# holds NAME WORD..: runs the program, called by these words, until `lets NAME`. It has answered a line, so it has FILE.
declare -A holder gate
holds() {
    local name=$1 pid end _
    shift
    rm -f "$name.in"
    mkfifo "$name.in"
    "$@" <"$name.in" >"$name.out" 2>"$name.said" &
    pid=$!
    exec {end}>"$name.in"
    holder[$name]=$pid
    gate[$name]=$end
    echo 'layers' >&"$end"
    for _ in {1..400}; do
        [ -s "$name.out" ] && return
        kill -0 "$pid" 2>/dev/null || wrong "'$*' ended: $(cat "$name.said")"
        sleep 0.05
    done
    wrong "'$*' answers nothing"
}

# The input of one that holds ends, and its status has to be that.
lets() {
    local wanted=$2 status=0 end=${gate[$1]}
    exec {end}>&-
    wait "${holder[$1]}" || status=$?
    [ "$status" -eq "$wanted" ] || wrong "$1 ended with status $status, not $wanted: $(cat "$1.said")"
}

# One that holds is killed, and has no time to do anything.
kills() {
    local end=${gate[$1]}
    kill -9 "${holder[$1]}"
    wait "${holder[$1]}" 2>/dev/null || true
    exec {end}>&-
}

# journal FILE WHAT: writes a journal beside FILE (docs/FORMAT.md, "The journal"): one of another file, with a commit
# (foreign) or with none (idle), or one that says that the session of this one has ended, whose gate was torn.
journal() {
    python3 - "$1" "$2" <<'END'
import sys

path, what = sys.argv[1:]
file = bytearray(open(path, "rb").read())
header = bytearray(file[4096:8192])
blocks = [bytes(4096)] * 7
if what in ("foreign", "idle"):
    header[100] ^= 1
    blocks[2] = b"RSTARJNL" + bytes([what == "foreign"]) + bytes(4087)
    blocks[3] = bytes(11) + bytes([2]) + bytes(4084)  # of two slots: blocks 0 and 2
    blocks[4] = bytes(file[:4096])
    blocks[5] = bytes([7]) * 4096
    blocks[6] = bytes(7) + bytes([2]) + bytes(4088)
if what == "ended":
    blocks[1] = b"RSTAREND" + bytes(header[8:])
    file[3] ^= 255
    open(path, "wb").write(file)
blocks[0] = b"RSTARLOG" + bytes(header[8:])
open(path + "-journal", "wb").write(b"".join(blocks[:2] if what == "ended" else blocks))
END
}

unopened='rstore: cannot open FILE'
missing="$unopened: no such file: --create makes one"
no_folder="$unopened: no such file: make its folder first"
not_empty='rstore: FILE is not empty: without --create it is opened as it is'
failed='rstore: input or output failed'
in_use='rstore: FILE is in use: wait until the program that has it open ends'
unended='rstore: the last run did not end; what changed after its last closing is lost'
closed_stream='rstore: a standard stream is closed'
readers='1 2 3 4 5 6 7 8 9 10'

for made in "$program" "$program.by-rattle"; do
    [ -x "$made" ] || continue
    rm -rf ./*

    ends 0 '' "$made" </dev/null >/dev/null
    ends 1 "$failed" "$made" </ >/dev/null
    ends 1 "$failed" "$made" <<<'create a 2 4' >/dev/full
    ends 0 '' "$made" --help </dev/null >replies
    grep -q 'FILE-journal' replies || wrong "--help says nothing of the journal"
    ends 1 "$failed" "$made" --help </dev/null >/dev/full
    ends 0 '' "$made" --version </dev/null >replies

    # the words
    line='*' status=2
    for words in 'x y' '--cache 7' '--cache 4097' '--cache x' '--cache' '--format 1' '--format 4' \
        '--format x' '--format' '--other' '--create --create' '--read-only' \
        '--read-only --create store' '--read-only --read-only store'; do
        # shellcheck disable=SC2086
        refused _ _ store "$made" $words
    done
    refused _ _ store "$made" $'\xff'

    # the file
    mkdir folder
    mkfifo fifo
    printf 'some bytes' >bytes
    line=$missing status=1
    unopens _ _ store "$made" store
    [ ! -e store ] || wrong "a file was made without --create"
    for path in folder folder/none/store fifo /dev/null ''; do
        case $path in
        folder) line="$unopened: is a directory" ;;
        */none/* | '') line=$missing ;;
        *) line=$unopened ;;
        esac
        unopens _ _ "$path" "$made" "$path"
        unopens _ _ "$path" "$made" --read-only "$path"
        [ "$line" != "$missing" ] || line=$no_folder
        unopens _ _ "$path" "$made" --create "$path"
    done
    line=$missing
    unopens _ _ store "$made" --read-only store
    line=$not_empty
    refused _ _ bytes "$made" --create bytes
    line='rstore: fail 21 NotAStore'
    refused _ _ bytes "$made" bytes

    # a store in a file
    ends 0 '' "$made" --create store <<<'create a 2 4' >/dev/null
    line=$not_empty
    refused _ _ store "$made" --create store
    ends 1 "$failed" "$made" store <<<'insert a 1 0 0 1 1' >/dev/full
    ends 0 '' "$made" store <<<'window a 0 0 1 1' >replies
    # no file takes the place of a standard stream that is closed, and none is made
    before=$(cksum store)
    for words in store '--create store' '--read-only store' '--create none'; do
        # shellcheck disable=SC2086
        {
            ends 1 "$closed_stream (FILE is ${words##* })" "$made" $words <<<'window a 0 0 1 1' >&-
            ends 1 "$closed_stream (FILE is ${words##* })" "$made" $words <&- >replies
        }
        [ ! -s replies ] || wrong "'$words' wrote: $(cat replies)"
        # shellcheck disable=SC2086
        ! "$made" $words <<<'window a 0 0 1 1' >replies 2>&- || wrong "'$words' without a standard error ended well"
    done
    [ "$before" = "$(cksum store)" ] || wrong "a closed stream's place was taken by the file"
    [ ! -e none ] || wrong "a file was made that takes a closed stream's place"
    ends 0 '' "$made" <<<'layers' 2>errors >/dev/null

    # one writer, by whatever name the file has; and since it has two, no reader beside it
    ln store link
    ln -s store symlink
    line=$in_use status=1
    holds writer "$made" store
    for path in store link symlink ./store; do
        unopens _ _ store "$made" "$path"
        unopens _ _ store "$made" --create "$path"
        unopens _ _ store "$made" --read-only "$path"
    done
    lets writer 0
    ends 0 '' "$made" store <<<'window a 0 0 1 1' >/dev/null
    # also of one that has just made it, and of one that was killed
    holds maker "$made" --create new
    unopens _ _ new "$made" new
    unopens _ _ new "$made" --create new
    ends 0 '' "$made" --read-only new <<<'layers' >replies
    grep -q '^ok 0$' replies || wrong "a reader beside the maker of a file answered: $(cat replies)"
    kills maker
    line='rstore: FILE-journal is missing, or is no journal: put back the FILE-journal of the run that was cut short'
    line+=' (docs/COMMANDS.md, "A journal that is lost", has the last resort)'
    mv new-journal aside
    unopens _ _ new "$made" new
    mv aside new-journal
    # a copy of it with an empty journal is opened, as docs/COMMANDS.md says of a journal that is lost
    cp new found && { printf RSTARLOG; head -c 8184 /dev/zero; } >found-journal
    ends 0 "$unended" "$made" found <<<'check' >replies
    grep -q '^ok$' replies || wrong "a file whose journal was lost: $(cat replies)"
    ln -s new newlink # a link leads to the same journal
    ends 0 "$unended" "$made" newlink <<<'layers' >/dev/null
    ends 0 '' "$made" new <<<'layers' >/dev/null
    [ ! -e new-journal ] || wrong "a run that ended left its journal"
    # a journal of another file is not taken, and an end that was cut short is finished
    before=$(cksum new)
    line='rstore: FILE-journal is the journal of another file: move it beside its own file'
    for kind in foreign idle; do
        journal new $kind
        unopens _ _ new "$made" new
        rm new-journal
    done
    journal new ended
    ends 0 '' "$made" new <<<'layers' >replies
    grep -q '^ok 0$' replies && [ ! -e new-journal ] || wrong "an end that was cut short: $(cat replies)"
    [ "$before" = "$(cksum new)" ] || wrong "an end that was cut short left another file"
    line=$in_use
    holds writer "$made" store
    kills writer
    ends 0 '' "$made" store <<<'window a 0 0 1 1' >/dev/null

    # many readers, and no writer beside them, since the file has two names
    before=$(cksum store)
    for reader in $readers; do
        holds "reader$reader" "$made" --read-only store
    done
    for path in store link symlink; do
        unopens _ _ store "$made" "$path"
        unopens _ _ store "$made" --create "$path"
    done
    kills reader10
    unopens _ _ store "$made" store
    ends 0 '' "$made" --read-only symlink <<<'window a 0 0 1 1' >replies
    grep -q '^ok 1$' replies || wrong "a reader beside readers answered: $(cat replies)"
    for reader in 9 8 7 6 5 4 3 2 1; do
        lets "reader$reader" 0
        grep -q '^a 2 4 ' "reader$reader.out" || wrong "reader $reader answered: $(cat "reader$reader.out")"
    done
    [ "$before" = "$(cksum store)" ] || wrong "a reader changed the file"
    ends 0 '' "$made" store <<<'window a 0 0 1 1' >/dev/null

    # each change is refused, the store goes on, and the file is as it was, also where it may not be written
    chmod 400 store
    before=$(cksum store)
    printf '%s\n' 'insert a 2 0 0 1 1' 'delete a 1' 'create b 2 4' 'window a 0 0 1 1' >asked
    ends 1 'rstore: fail 17 Device' "$made" --read-only store <asked >replies
    printf '%s\n' 'fail 17 Device' 'fail 17 Device' 'fail 17 Device' 'ok 1' '1 0 0 1 1' >wanted
    cmp -s replies wanted || wrong "changes of a file that is only read: $(cat replies)"
    ends 0 '' "$made" --read-only store <<<'reopen' >replies
    [ "$before" = "$(cksum store)" ] || wrong "a file that is only read was changed"
    chmod 600 store
    if [ "$(id -u)" -ne 0 ]; then
        chmod 000 store
        line="$unopened: permission denied"
        unopens _ _ none "$made" store
        unopens _ _ none "$made" --read-only store
        chmod 400 store
        unopens _ _ none "$made" store
        ends 0 '' "$made" --read-only store <<<'layers' >/dev/null
        chmod 600 store
    fi
    # a strict run ends at the first refused line, says which it is, and closes nothing but what was closed before
    ends 0 '' "$made" --strict --create script <<<$'create a 2 4\ninsert a 1 0 0 1 1' >replies
    "$made" script <<<'dump' >before
    printf '%s\n' '# a script' 'create b 2 4' 'load b 2' '1 0 0 1 1' '2 0 0 1 1' '' 'insert a 1 2 2 3 3' 'drop a' >asked
    ends 3 'rstore: line 7: insert a 1 2 2 3 3: fail 9 Duplicate' "$made" --strict script <asked >replies
    printf '%s\n' ok ok 'fail 9 Duplicate' >wanted
    cmp -s replies wanted || wrong "a strict run wrote: $(cat replies)"
    [ ! -e script-journal ] || wrong "a strict run that stopped left its journal"
    "$made" script <<<'dump' >replies
    cmp -s replies before || wrong "a strict run that stopped left: $(cat replies)"
    ends 0 '' "$made" script <asked >replies
    line='rstore: line 3: x: fail 24 BadLine: no command begins so'
    ends 3 "$line" "$made" --strict script <<<$'drop b\nreopen\nx\ndrop a' >replies
    "$made" script <<<'layers' >replies
    [ "$(cat replies)" = "$(printf 'ok 0')" ] || wrong "a strict run that had reopened left: $(cat replies)"
    ends 3 'rstore: line 1: load?b 2: fail 24 BadLine: line 2 is no entry' "$made" --strict <<<$'load\tb 2\nx\ny' >replies
    ends 1 "$failed" "$made" --strict <<<'x' >/dev/full
    ends 1 "$failed" "$made" --strict script <<<'create c 2 4' >/dev/full
    ends 0 '' "$made" --strict --read-only script <<<'layers' >replies
    [ "$(cat replies)" = 'ok 0' ] || wrong "a strict run whose output failed left: $(cat replies)"
    ends 3 'rstore: line 1: create c 2 4: fail 17 Device' "$made" --strict --read-only script <<<'create c 2 4' >replies
    for words in '--strict --stats script' '--strict --draw a script' '--strict --import a script' '--strict --strict'; do
        # shellcheck disable=SC2086
        ends 2 '*' "$made" $words </dev/null >replies
    done
    # the newest version that a file may be raised to: each has a layer
    for words in '2 --format 2 two' '3 three' '3 --format 3 newest'; do
        # shellcheck disable=SC2086
        ends 0 '' "$made" --create ${words#* } <<<$'create a 2 4\ninsert a 1 0 0 1 1' >replies
        [ "$(od -An -tu1 -j4104 -N2 "${words##* }" | xargs)" = "0 ${words%% *}" ] || wrong "another version: $words"
    done
    # objects are imported, all of them or none: a bad row opens no file, and one that is there undoes those before it
    printf '%s\n' 'id,minx,miny,maxx,maxy,tag' '7,-1.26,2,3.01,4,5' '8,0,0,1,1,' >rows
    printf '%s\n' 'id,x,y' '1,5,5' '2,5,x' >bad
    printf '%s\n' '{"type":"Feature","properties":{"id":9,"kind":3},"geometry":{"type":"Point","coordinates":[7,8]}}' >lines
    printf '%s\n' 'id,x,y' '4,1,1' '8,2,2' >twice
    ends 3 'rstore: line 3, column y: "x" is no number' "$made" --create --import b:8 boxes <bad >replies
    [ ! -e boxes ] || wrong "a file was made for rows of which one is bad"
    ends 0 '' "$made" --create --import b:8 --scale 10 boxes <rows >replies
    ends 0 '' "$made" --import b --geojson --columns id,kind boxes <lines >>replies
    ends 3 'rstore: line 2, column minx: "-1.26" is no whole number: --scale N multiplies coordinates,'\
' --scale 1 widens them to whole numbers' "$made" --import b boxes <rows >>replies
    ends 3 'rstore: no column y: --columns LIST names the columns' "$made" --import b boxes <<<'id,x' >>replies
    "$made" boxes <<<'dump' >before
    ends 3 'rstore: line 3, column y: "x" is no number' "$made" --import b boxes <bad >>replies
    ends 3 'rstore: column x is given twice' "$made" --import b --columns id,x,x boxes <bad >>replies
    ends 1 '*' "$made" --import b boxes </ >>replies
    grep -q '^rstore: the input could not be read: ' errors || wrong "an import of a folder said: $(cat errors)"
    ends 1 'rstore: object 8: fail 9 Duplicate' "$made" --import b boxes <twice >>replies
    ends 1 'rstore: object 1: fail 8 WrongDims' "$made" --import b --columns ,1,2,3 boxes <<<'1,2,3' >>replies
    ends 2 'rstore: --import writes FILE: leave out --read-only' "$made" --import b --read-only boxes <rows >>replies
    [ ! -s replies ] || wrong "an import wrote: $(cat replies)"
    [ ! -e boxes-journal ] || wrong "an import that gave up left its journal"
    printf '%s\n' 'ok 4' 'create b 2 8' 'insert b 7 -13 20 31 40 tag 5' 'insert b 8 0 0 10 10' \
        'insert b 9 7 8 7 8 tag 3' >wanted
    cmp -s before wanted || wrong "objects were imported as: $(cat before)"
    "$made" boxes <<<'dump' >replies
    cmp -s replies wanted || wrong "an import that gave up left: $(cat replies)"
    printf '\0' | dd of=store bs=1 seek=8 conv=notrunc status=none
    line='rstore: fail 20 NotClosed: the run that made FILE was cut short before it closed anything:'
    line+=' put back FILE-journal if there was one, else remove FILE and make it anew'
    refused _ _ store "$made" store
    line='rstore: fail 20 NotClosed: open FILE once for writing'
    refused _ _ store "$made" --read-only store
done

# A file holds the corners, the identifier and the tag of an object, and nothing of it once it is deleted, also where it
# stood between others.
object='5279420865908921433 1280268120 1280268121 1414484056 1414484057 tag 1413564243'
rm -f store
{
    echo 'create a 2 4'
    for id in {1..8}; do echo "insert a $id $((id * 260000000)) 0 $((id * 260000000)) 1"; done
    echo "insert a $object"
    for id in {11..19}; do echo "insert a $id $((id * 100000000)) 5 $((id * 100000000)) 6"; done
} | "$program" --create store >replies
[ "$(sort -u replies)" = ok ] || wrong "a small file: $(sort -u replies)"
for word in LOWX LOWY TOPX TOPY IDENTITY TAGS; do
    grep -aqF "$word" store || wrong "a file without the $word of its object"
done
[ "$("$program" store <<<"delete a ${object%% *}")" = ok ] || wrong 'a deletion was refused'
[ ! -e store-journal ] || wrong 'a journal after the end'
for word in LOWX LOWY TOPX TOPY IDENTITY TAGS; do
    ! grep -aqF "$word" store || wrong "a file has the $word of a deleted object"
done
