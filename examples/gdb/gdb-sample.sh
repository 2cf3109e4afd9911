#!/bin/sh
# Samples processes of this host with gdb: gdb-sample.sh FOLDER HOST TIMES RANK:PID ..
#
#     ./gdb-sample.sh /tmp/bt node1 3 0:4711 1:4712
#
# Writes FOLDER/HOST/RANK.TIME for the sample times 0, 1, .., TIMES - 1: what gdb prints of the process of that rank, or a line
# `why REASON` where it prints no stack. As many processes are sampled at once as there are cores; between two times it waits
# for $PAUSE seconds (1 if not set). Each process stands still while gdb looks at it, and then goes on; gdb is ended for sure
# after $SECONDS_EACH seconds (60 if not set). Nothing is written over: FOLDER/HOST must not be there.
#
# Standard error says how many samples have no stack, and why. The status is 1 where none has one, and 2 where nothing was done.
set -eu

# refuse WHY
refuse() {
    echo "gdb-sample.sh: $1" >&2
    exit 2
}

case ${1-} in
-h | --help)
    sed -n '2,/^set/{/^#/s/^# \{0,1\}//p;}' "$0"
    exit 0
    ;;
esac
[ $# -ge 4 ] || refuse "usage: gdb-sample.sh FOLDER HOST TIMES RANK:PID .."
folder=$1 host=$2 times=$3
shift 3
case $host in
'' | .* | *[!A-Za-z0-9._-]*) refuse "HOST is '$host', and has to be of letters, digits, '.', '-' and '_'" ;;
esac
[ "${#host}" -le 63 ] || refuse "HOST has over 63 letters"
case $times in
[1-9] | [1-5][0-9] | 6[0-4]) ;;
*) refuse "TIMES is '$times', and has to be from 1 to 64" ;;
esac
ranks=' '
for process in "$@"; do
    rank=${process%%:*}
    case $process in
    *[!0-9:]* | :* | *: | *:*:* | 0[0-9]*) refuse "'$process' is not RANK:PID" ;;
    *:*) ;;
    *) refuse "'$process' is not RANK:PID" ;;
    esac
    if [ "${#rank}" -gt 7 ] || [ "$rank" -gt 1048575 ]; then refuse "rank $rank is above 1048575"; fi
    case $ranks in
    *" $rank "*) refuse "rank $rank is there twice" ;;
    esac
    ranks="$ranks$rank "
done
for tool in gdb timeout; do
    command -v "$tool" >/dev/null || refuse "no $tool on this host"
done
[ ! -e "$folder/$host" ] || refuse "$folder/$host is there already: take another name, or remove it"
mkdir -p "$folder/$host"
work=$(mktemp -d)
trap 'rm -rf "$work"' EXIT
trap 'exit 130' INT
trap 'exit 143' TERM HUP

# reason FILE: the last line of what gdb said that isn't blank
reason() {
    # shellcheck disable=SC2016 # the $ is the last line, for sed
    sed -n '/[^ ]/h; ${g; p}' "$1" | sed 's/\.*$//; s/^$/no stack/'
}

# sample RANK PID: what gdb prints, or why it prints nothing
sample() {
    state=$(sed 's/.*) \(.\).*/\1/' "/proc/$2/stat" 2>/dev/null) || state=
    case $state in
    '' | Z) echo "why no process any more"; return ;;
    D) echo "why in the kernel: $(cat "/proc/$2/wchan" 2>/dev/null)"; return ;; # gdb would wait as long as the process does
    t) echo "why held by another debugger"; return ;;
    T) echo "why stopped by a signal" ;;
    esac
    status=0
    timeout -k 5 "${SECONDS_EACH:-60}" gdb -nx -batch -p "$2" -ex 'set print frame-arguments none' \
        -ex 'set backtrace past-main on' -ex 'thread apply all bt' </dev/null >"$work/$1.out" 2>"$work/$1" || status=$?
    case $status in
    124 | 137) # gdb was ended: the stop that it asked for must not come when it is gone
        echo "why gdb took over ${SECONDS_EACH:-60} s"
        [ "$state" = T ] || kill -s CONT "$2" 2>/dev/null || : ;;
    *)
        if ! grep -q '^#0' "$work/$1.out"; then
            if [ -e "/proc/$2/stat" ]; then echo "why $(reason "$work/$1")"; else echo "why no process any more"; fi
        fi ;;
    esac
    cat "$work/$1.out"
}

time=0 cores=$(getconf _NPROCESSORS_ONLN) || cores=1
while [ "$time" -lt "$times" ]; do
    [ "$time" -eq 0 ] || sleep "${PAUSE:-1}"
    running=0
    for process in "$@"; do
        sample "${process%%:*}" "${process#*:}" >"$folder/$host/${process%%:*}.$time" &
        running=$((running + 1))
        [ $((running % cores)) -ne 0 ] || wait
    done
    wait
    time=$((time + 1))
done

all=$(($# * times)) with=$(grep -l '^#0' "$folder/$host"/* | wc -l)
if [ "$with" -lt "$all" ]; then
    echo "gdb-sample.sh: $((all - with)) of $all samples have no stack:" \
        "$(grep -h '^why ' "$folder/$host"/* | sed 's/^why //' | sort | uniq -c | sort -rn | sed 's/^ *//' | head -n 3 | paste -sd, -)" >&2
fi
[ "$with" -gt 0 ]
