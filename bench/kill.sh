#!/bin/sh
# Kills commands of a built program at each of their system calls in turn, from the first that opens the party's file on,
# and lets each call on the disk, and each write of the reply, fail in turn. Each time it runs over a fresh copy of the
# file; `show` must then give the party as it was or as it becomes, and as it becomes where any of the reply went out. A
# payment's ledger is told by the payment that comes next: it has the number that it had, or the next one. A batch has the
# same outbox when it is taken again. A turn over two disks is looked at as it is left, and with either disk removed. A
# replay has to leave its parties as behind some event, or as a part of the set-up leaves them, with so much written.
# A killed process leaves the system's memory of the file as it is: this is no loss of power.
# kill.sh [PROGRAM]; wants Linux and strace.
here=$(cd "$(dirname "$0")/.." && pwd) || exit 1
program=$(realpath "${1:-$here/crates/x917/out/x917}") || exit 1
work=$(mktemp -d) || exit 1
trap 'rm -rf "$work"' EXIT
mkdir "$work/before" "$work/run" && cd "$work/run" || exit 1
tried=0
violations=0

violation() {
    violations=$((violations + 1))
    printf 'violation: %s: %s\n' "$name" "$1"
    cat ../shown
}

# fresh: the folder as before the command
fresh() {
    rm -rf ./*
    cp -p ../before/* . 2>/dev/null
    : >../output
    : >../error
}

# shown: the party, in ../shown; of two disks that are named, behind the loss of one, if one is lost; of a payment what the same
# words answer now, without its code
probe=
mirror=
lost=
shown() {
    if [ -n "$probe" ]; then
        # shellcheck disable=SC2086
        "$program" $words <../input
    elif [ -n "$mirror" ]; then
        [ -z "$lost" ] || rm -f "$lost.x917"
        "$program" show --party "$party" --mirror "$mirror"
    else
        "$program" show --party "$party"
    fi >../printed 2>&1
    echo "exit $?" >>../printed
    masked ../printed >../shown
}

# traced OPTIONS: the command under strace; its exit code in $code
traced() {
    # shellcheck disable=SC2086
    strace -f -y -qq -o ../trace "$@" "$program" $words <../input >../output 2>../error
    code=$?
} 2>/dev/null

# calls [FILE]: a line for each system call of the last trace, from the first that names the party's file, or one like FILE,
# on: its name, which one of that name it is, and what it is for
calls() {
    awk -v file="${1:-$party.x917}" '
        { sub(/^[0-9]+ +/, "") }
        !/^[a-z0-9_]+\(/ { next }
        { name = $0; sub(/\(.*/, "", name); count[name]++ }
        index($0, file) { on = 1 }
        !on { next }
        name == "close" { print name, count[name], "other"; next }
        index($0, file) || /"\."/ || name ~ /sync/ { print name, count[name], "disk"; next }
        /^write\(1</ { print name, count[name], "output"; next }
        { print name, count[name], "other" }
    ' ../trace
}

# kill_at CALL N
kill_at() {
    fresh
    traced -e "trace=$1" -e "inject=$1:signal=KILL:when=$2"
    shown
    tried=$((tried + 1))
    [ "$code" = 137 ] || violation "not killed at $1 $2"
    if cmp -s ../shown ../new; then
        stands_new=$((stands_new + 1))
    elif ! cmp -s ../shown ../old; then
        violation "killed at $1 $2: neither the old nor the new party"
    elif [ -s ../output ]; then
        violation "killed at $1 $2: the reply is out, and the old party stands"
    fi
}

# masked FILE: a reply without the digits that the moment and the drawn keys give
masked() {
    sed -e 's#\(KDU*\)/[0-9A-F]\{16\}#\1/................#g' -e 's#KK/[0-9A-F]\{32\}#KK/................................#' -e 's#MAC/[0-9A-F]\{8\}#MAC/........#' "$1"
}

# fail_at CALL N ERROR EXIT LINE: the call answers the error
fail_at() {
    fresh
    traced -e "trace=$1" -e "inject=$1:error=$3:when=$2"
    shown
    tried=$((tried + 1))
    grep -q INJECTED ../trace || violation "$3 not given at $1 $2"
    [ "$code" = "$4" ] || violation "$3 at $1 $2: exit $code"
    echo "$5" | cmp -s - ../error || violation "$3 at $1 $2: another line"
    if [ "$4" = 5 ]; then
        [ ! -s ../output ] || violation "$3 at $1 $2: a reply is out"
        cmp -s ../shown ../new || cmp -s ../shown ../old || violation "$3 at $1 $2: another party"
    else
        masked ../output >../part
        masked ../reply | head -c "$(wc -c <../part)" | cmp -s - ../part || violation "$3 at $1 $2: no prefix of the reply"
        cmp -s ../shown ../new || violation "$3 at $1 $2: the old party"
    fi
}

# subject NAME PARTY WORDS [stays]: a command in ../before, with ../input as its input, that changes the party or leaves
# it as it is
subject() {
    name=$1
    party=$2
    words=$3
    wanted=${4:-changes}
    stands_new=0
    fresh
    shown
    mv ../shown ../old
    fresh
    traced
    mv ../output ../reply
    shown
    mv ../shown ../new
    calls "${probe:-${mirror:+.x917}}" >../calls
    if cmp -s ../old ../new; then came=stays; else came=changes; fi
    { [ "$code" = 0 ] && [ "$came" = "$wanted" ]; } || { echo "$name: not done: exit $code"; cat ../error; exit 1; }
    while read -r call n kind; do
        kill_at "$call" "$n"
    done <../calls
    kills=$tried
    while read -r call n kind; do
        case $kind in
        disk)
            fail_at "$call" "$n" EIO 5 'x917: disk fault'
            case $call in
            *write* | *sync*) fail_at "$call" "$n" ENOSPC 5 'x917: disk fault' ;;
            esac
            ;;
        output) fail_at "$call" "$n" EIO 4 'x917: write fault' ;;
        esac
    done <../calls
    printf '%-16s %3d kills (%d leave the new party), %3d faults\n' "$name" "$((kills - start))" "$stands_new" "$((tried - kills))"
    start=$tried
}

# keep: what the last undisturbed command left is where the next one begins
keep() {
    fresh
    # shellcheck disable=SC2086
    "$program" $words <../input >../output || exit 1
    rm -rf ../before
    mkdir ../before
    cp -p ./* ../before
}

# at FILE PLACE COUNT: the number in so many bytes of the file from there on, most significant first
at() {
    od -An -v -tu1 -j "$2" -N "$3" "$1" | tr -s ' \n' '  ' | awk '{ n = 0; for (i = 1; i <= NF; i++) n = n * 256 + $i; print n }'
}

# in_format_1 FILE: turns each record of a file of format 2 into one of format 1, which has no code
in_format_1() {
    head -c 16 "$1" >../older
    place=16
    while [ "$(at "$1" "$place" 1)" = 1 ]; do
        length=$(at "$1" $((place + 1)) 4)
        {
            printf '%b' "$(awk -v n=$((length - 4)) 'BEGIN { printf "\\0001\\0%03o\\0%03o\\0%03o\\0%03o\\0001", int(n / 16777216), int(n / 65536) % 256, int(n / 256) % 256, n % 256 }')"
            tail -c +$((place + 7)) "$1" | head -c $((length - 5))
        } >>../older
        place=$((place + 5 + length))
    done
    printf '\000' >>../older
    cat ../older >"$1"
}

# all_shown: the parties of the scenario, in ../shown
all_shown() {
    for member in BANKA BANKB; do
        "$program" show --party "$member"
    done >../shown 2>&1
}

# step WRITTEN: what the parties show now is a step of the replay, while at most so many bytes are written
step() {
    all_shown
    mv ../shown "../steps/$steps"
    echo "$1" >"../steps/$steps.most"
    steps=$((steps + 1))
}

# is_step: whether what the parties show is a step, and so much is written
is_step() {
    size=$(wc -c <../output)
    head -c "$size" ../whole | cmp -s - ../output || return 1
    least=0
    number=0
    while [ "$number" -lt "$steps" ]; do
        most=$(cat "../steps/$number.most")
        cmp -s "../steps/$number" ../shown && [ "$least" -le "$size" ] && [ "$size" -le "$most" ] && return 0
        least=$most
        number=$((number + 1))
    done
    return 1
}

# stopped WHAT CODE LINE: a replay that was stopped so has this exit code and error line, and leaves a step
stopped() {
    tried=$((tried + 1))
    [ "$code" = "$2" ] || violation "$1: exit $code"
    [ -z "$3" ] || echo "$3" | cmp -s - ../error || violation "$1: another line"
    all_shown
    is_step || violation "$1: no step of the replay"
}

# replayed: a key is sent, taken and answered
replayed() {
    name=replay
    words=replay
    steps=0
    rm -rf ../before ../steps
    mkdir ../before ../steps
    cat >../scenario <<END
PARTY BANKA BANK $pair 0000000000000001
PARTY BANKB BANK $pair 0000000000000001
LINK BANKA BANKB K1 $pair
START BANKA BANKB
RECENT 1
RECENT 1
END
    fresh
    step 0
    for line in "init --party BANKA --role bank --genkey $pair --genseed 0000000000000001" \
        "load --party BANKA --peer BANKB --label K1 --side out --key $pair" \
        "init --party BANKB --role bank --genkey $pair --genseed 0000000000000001" \
        "load --party BANKB --peer BANKA --label K1 --side in --key $pair"; do
        # shellcheck disable=SC2086
        "$program" $line || exit 1
        step 0
    done
    for lines in 4 5 6; do
        fresh
        head -n "$lines" ../scenario | "$program" replay >../whole || exit 1
        written=$(grep '^[ET][0-9]' ../whole | wc -c)
        [ "$lines" -lt 6 ] || written=$(wc -c <../whole)
        step "$written"
    done
    cp ../scenario ../input
    fresh
    traced
    calls .x917 >../calls
    while read -r call n kind; do
        fresh
        traced -e "trace=$call" -e "inject=$call:signal=KILL:when=$n"
        stopped "killed at $call $n" 137 ''
    done <../calls
    kills=$tried
    while read -r call n kind; do
        fresh
        case $kind in
        disk)
            traced -e "trace=$call" -e "inject=$call:error=EIO:when=$n"
            stopped "EIO at $call $n" 5 'x917: disk fault'
            ;;
        output)
            traced -e "trace=$call" -e "inject=$call:error=EIO:when=$n"
            stopped "EIO at $call $n" 4 'x917: write fault'
            ;;
        esac
    done <../calls
    printf '%-16s %3d kills, %3d faults\n' "$name" "$((kills - start))" "$((tried - kills))"
    start=$tried
}

start=0
: >../input
pair=0123456789ABCDEFFEDCBA9876543210
subject init BANKA "init --party BANKA --role bank --genkey $pair --genseed 0000000000000001"
keep
subject load BANKA "load --party BANKA --peer BANKB --label K1 --side out --key $pair"
keep
words="init --party BANKB --role bank --genkey $pair --genseed 0000000000000002"
keep
words="load --party BANKB --peer BANKA --label K1 --side in --key $pair"
keep
subject start BANKA 'start --party BANKA --peer BANKB'
keep
cp ../output ../input
cat ../input ../input | "$program" batch >../batch || exit 1
mv ../input ../message
mv ../batch ../input
probe=.x917
subject spool BANKB 'spool --party BANKB --spool SPLB' stays
probe=
mv ../message ../input
words='show --party BANKB --mirror MIRB'
keep
mirror=MIRB
subject 'take (two disks)' BANKB 'take --party BANKB --mirror MIRB'
lost=BANKB
subject 'take, 1st lost' BANKB 'take --party BANKB --mirror MIRB'
lost=MIRB
subject 'take, 2nd lost' BANKB 'take --party BANKB --mirror MIRB'
mirror=
lost=
subject 'take (key)' BANKB 'take --party BANKB'
keep
cp ../output ../input
subject 'take (response)' BANKA 'take --party BANKA'
keep
: >../input
probe=.x917
subject pay BANKA 'pay --party BANKA --peer BANKB --name BANKA.BANKA.K1.1 --ledger LEDA --amount 2500'
keep
subject 'pay (again)' BANKA 'pay --party BANKA --peer BANKB --name BANKA.BANKA.K1.1 --ledger LEDA --amount 2500'
cp ../reply ../input
subject accept BANKB 'accept --party BANKB --ledger LEDB'
probe=
: >../input
subject startkk BANKA 'startkk --party BANKA --peer BANKB --new K2'
keep
cp ../output ../input
subject 'take (new key)' BANKB 'take --party BANKB'
keep
cp ../output ../input
words='take --party BANKA'
keep
: >../input
subject end BANKA 'end --party BANKA --peer BANKB --name BANKA.BANKA.K1.1'
keep
subject compact BANKA 'compact --party BANKA' stays
keep
subject wipe BANKA 'wipe --party BANKA' stays
keep
words="init --party BANKM --role bank --genkey $pair --genseed 0000000000000005"
keep
words="load --party BANKM --peer BANKA --label K1 --side out --key $pair"
keep
in_format_1 ../before/BANKM.x917
subject migrate BANKM 'migrate --party BANKM' stays
keep
one=0123456789ABCDEDFEDCBA9876543212
other=0123456789ABCDEBFEDCBA9876543214
words="init --party CKDX --role distribution --genkey $pair --genseed 0000000000000003"
keep
words="load --party CKDX --peer BANKA --label C --side out --key $one"
keep
words="load --party CKDX --peer BANKC --label C --side out --key $other"
keep
words="load --party BANKA --peer CKDX --label C --side in --key $one"
keep
subject ask BANKA 'ask --party BANKA --peer CKDX --ultimate BANKC'
keep
cp ../output ../input
subject 'take (RSI)' CKDX 'take --party CKDX'
keep
cp ../output ../input
subject 'take (RTR)' BANKA 'take --party BANKA'
: >../input
one=0123456789ABCDE9FEDCBA9876543216
other=0123456789ABCDE7FEDCBA9876543218
words="init --party CKTX --role translation --genkey $pair --genseed 0000000000000004"
keep
words="load --party CKTX --peer BANKA --label C --side in --key $one"
keep
words="load --party CKTX --peer BANKD --label C --side out --key $other"
keep
words="load --party BANKA --peer CKTX --label C --side out --key $one"
keep
subject translate BANKA 'translate --party BANKA --peer CKTX --ultimate BANKD'
keep
cp ../output ../input
subject 'take (RFS)' CKTX 'take --party CKTX'
replayed
echo "$tried tried, $violations violations"
[ "$violations" = 0 ]
