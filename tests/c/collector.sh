#!/usr/bin/env bash
# collector.sh COLLECTOR SAMPLES: the samples are what SAMPLES makes, and the collector prints what it must, on them and
# on a serial line; each failure is told.
set -euo pipefail
collector=$(realpath "$1")
make_samples=$(realpath "$2")
cd "$(dirname "$0")/../../samples"
work=$(mktemp -d)
trap 'rm -rf "$work"' EXIT

"$make_samples" "$work"
cmp "$work/elv.bin" elv.bin
cmp "$work/trimble.bin" trimble.bin
cmp "$work/marks.bin" marks.bin

wrong_sum='the check sum is wrong, or not two capital hexadecimal digits'
"$collector" -e elv.bin -t trimble.bin -m marks.bin > "$work/out" 2> "$work/err"
diff collector.txt "$work/out"
tail -n +2 "$work/out" | cut -c 1-23 | LC_ALL=C sort -c
diff - "$work/err" << END
collector: elv.bin: place 42: refused 6: no such time of day
collector: trimble.bin: place 78: refused 24: $wrong_sum: found 6E, sent 6F
collector: trimble.bin: place 117: refused 25: the validity flag is not 1
collector: trimble.bin: place 156: refused 1: string length wrong for its kind
collector: marks.bin: place 246: refused 12: a mark in the run is neither short nor long
collector: 10 times, 5 refused
END

# Without Trimble strings the columns are narrower, and the other lines are the same.
"$collector" -e elv.bin -m marks.bin > "$work/out" 2> "$work/err"
diff <(grep -v trimble collector.txt | tr -s ' ') <(tr -s ' ' < "$work/out")
grep -qx '2016-10-30 00:59:58  2016-10-30 02:59:58 +02:00 --S!---  elv.bin' "$work/out"

# The listing's two strings, a string cut short, an overlong one, a leap second after the second after it.
{
    printf '\002D:08.11.06;T:3;U:14.39.39;    \003\r\n\00208.11.06; 3; 24:00:00; U      \003'
    printf '\00201.01.17; 7; 00:5\00201.01.17; 7; 01:00:00;        \003\002%070d\003' 0
    printf '\00201.01.17; 7; 00:59:60;        \003'
    printf '\00209.07.93; 5; 08:48:26; -03:30; #*S!AR ; 49.5736N  11.0280E  373m\003'
} | "$collector" -s - > "$work/out" 2> "$work/err"
diff - "$work/out" << 'END'
UTC                  local               zone   flags    file
1993-07-09 12:18:26  1993-07-09 08:48:26 -03:30 #*S!AR-  -
2006-11-08 13:39:39  2006-11-08 14:39:39 +01:00 -------  -
2016-12-31 23:59:60  2017-01-01 00:59:60 +01:00 ------L  -
2017-01-01 00:00:00  2017-01-01 01:00:00 +01:00 -------  -
END
diff - "$work/err" << 'END'
collector: -: place 34: refused 6: no such time of day
collector: -: place 188: overlong string dropped
collector: 4 times, 2 refused
END

# -e refuses Meinberg strings, and says what reads them; an ELV string beside them is read.
printf '\002D:08.11.06;T:3;U:14.39.39;    \003\r\n06-11-08-14-39-40-00\r\n\00208.11.06; 3; 14:39:41;        \003' |
    "$collector" -e - > "$work/out" 2> "$work/err"
diff - "$work/out" << 'END'
UTC                  local               zone   flags    file
2006-11-08 13:39:40  2006-11-08 14:39:40 +01:00 -------  -
END
diff - "$work/err" << 'END'
collector: -: place 0: refused 1: string length wrong for its kind
collector: -: place 56: refused 1: string length wrong for its kind
collector: -: has Meinberg strings in it, which -s reads; -e reads ELV strings
collector: 1 times, 2 refused
END

# Trimble strings: of equal seconds by milliseconds, whatever the order in the file; the poll's echo, a string that was
# cut off by the next, and one that ends with the file are refused, noise between strings is passed over. A sum's bytes
# that can't be printed are shown as numbers.
{
    printf '>QTM<>RTM1439399990811200614007100000;*67<noise<\003>RTM143939\n'
    printf '>RTM1439390010811200614007100000;*6F<>RTM1439391230811200614007100000;*6e<>RTM1439391230811200614007100000;'
    printf '*\0016<>RTM1439'
} | "$collector" -t - > "$work/out" 2> "$work/err"
diff - "$work/out" << 'END'
UTC                      local                   zone   flags    file
2006-11-08 14:39:39.001  2006-11-08 14:39:39.001 +00:00 -------  -
2006-11-08 14:39:39.999  2006-11-08 14:39:39.999 +00:00 -------  -
END
diff - "$work/err" << END
collector: -: place 0: refused 1: string length wrong for its kind
collector: -: place 49: refused 1: string length wrong for its kind
collector: -: place 97: refused 24: $wrong_sum: found 6E, sent 6e
collector: -: place 134: refused 24: $wrong_sum: found 6E, sent \\x016
collector: -: place 171: refused 1: string length wrong for its kind
collector: 2 times, 5 refused
END

# No string is lost to what stands before it: the echo of a poll before one whose rrrrr ends in <, so that 37 bytes from
# the echo on end in <, and one that was cut off before one whose rrrrr looks like the end of a string.
{
    printf '>QTM<>RTM143939124081120061400710000<;*65<'
    printf '>RTM1>RTM14393912408112006140071;*ab<;*77<'
    printf '>>RTM14393912408112006140071<<>>>;*67<'
} | "$collector" -t - > "$work/out" 2> "$work/err"
diff - "$work/out" << 'END'
UTC                      local                   zone   flags    file
2006-11-08 14:39:39.124  2006-11-08 14:39:39.124 +00:00 -------  -
2006-11-08 14:39:39.124  2006-11-08 14:39:39.124 +00:00 -------  -
2006-11-08 14:39:39.124  2006-11-08 14:39:39.124 +00:00 -------  -
END
diff - "$work/err" << 'END'
collector: -: place 0: refused 1: string length wrong for its kind
collector: -: place 42: refused 1: string length wrong for its kind
collector: -: place 84: refused 1: string length wrong for its kind
collector: 3 times, 3 refused
END

# A wrong byte is shown, whatever rrrrr holds: M, a digit, v, ; and the last <, with < and > in rrrrr and without.
wrong() {
    printf '%s>RTM1439390010811200614007100000;*6F<' "$1" | "$collector" -t - > "$work/out" 2> "$work/err"
    if ! grep -q "place 0: refused $2:" "$work/err" || ! grep -q '^2006-11-08 14:39:39.001 ' "$work/out"; then
        echo "$1: not refused with $2, or the string after it is lost"
        exit 1
    fi
}
wrong '>RTN143939124081120061400710000<;*65<' 1
wrong '>RTN1439391240811200614007100000;*6A<' 2
wrong '>RTM14393912x08112006140071<<>>>;*67<' 3
wrong '>RTM14393912408112006140070<<>>>;*66<' 25
wrong '>RTM14393912408112006140071<<>>>:*67<' 1
wrong '>RTM1439391240811200614007100000:*68<' 2
wrong '>RTM1439391240811200614007100000;*69?' 2
wrong '>RTM143939124081120061400710000<;*65?' 1

# A file named with an option that does not read it is told, with the option that does.
told() {
    "$collector" "$1" "$2" > "$work/out" 2> "$work/err"
    grep -qF "$3" "$work/err" || { echo "$1 $2: does not say: $3"; exit 1; }
}
told -s elv.bin 'elv.bin: has no STX in it, so no Meinberg string; -e reads ELV strings, -t Trimble strings'
told -t elv.bin 'elv.bin: has no > in it, so no Trimble string; -s reads Meinberg strings, -e ELV strings'
told -t capture.bin 'capture.bin: has Meinberg strings in it, which -s reads; -t reads Trimble strings'
told -e trimble.bin 'trimble.bin: has Trimble strings in it, which -t reads; -e reads ELV strings'
told -s trimble.bin 'trimble.bin: has no STX in it, so no Meinberg string; -e reads ELV strings, -t Trimble strings'

# Empty files, ELV strings with LF, and what is wrong with a call.
: > "$work/empty"
heading='UTC                  local               zone   flags    file'
"$collector" -s "$work/empty" -e "$work/empty" -m "$work/empty" 2> "$work/err" | cmp - <(echo "$heading")
"$collector" -t "$work/empty" 2> "$work/err" | cmp - <(head -1 collector.txt)
grep -qx 'collector: 0 times, 0 refused' "$work/err"
printf '06-11-08-14-39-39-00\r\n06-11-08-14-39-40-00\r\n06-11' | "$collector" -e - > "$work/out" 2> "$work/err"
test "$(grep -c 2006 "$work/out")" = 2
grep -q 'place 44: refused 1: string length wrong' "$work/err"
fails() {
    local status=$1 text=$2
    shift 2
    local got=0
    "$@" > /dev/null 2> "$work/err" || got=$?
    if [ "$got" != "$status" ] || ! grep -q "$text" "$work/err"; then
        echo "$*: status $got, $(head -1 "$work/err")"
        exit 1
    fi
}
fails 2 '^usage: ' "$collector"
fails 2 '^usage: ' "$collector" -s
fails 2 'no such option: -x' "$collector" -x "$work/empty"
fails 1 'No such file' "$collector" -m "$work/none"
tr '\000\001\002\003' 0123 < marks.bin > "$work/text"
echo >> "$work/text"
fails 1 'digits as text; a recording has the bytes 0, 1, 2 and 3' "$collector" -m "$work/text"
{ cat "$work/text"; cat marks.bin; } > "$work/mixed"
"$collector" -m "$work/mixed" 2> "$work/err" | grep -c 'mixed$' | grep -qx 4
fails 1 'directory' "$collector" -m "$work"
if [ -w /dev/full ]; then
    got=0
    "$collector" -e elv.bin > /dev/full 2> "$work/err" || got=$?
    [ "$got" = 1 ] && grep -q 'standard output: cannot be written' "$work/err"
fi
echo "the collector prints what it must"
