#!/bin/sh
# Plays scripts that go wrong by the program hall, and compares what it prints, what it says on standard error, and its status.
# The program is built by ./hall.
program=$(cd "$(dirname "$0")/.." && pwd)/crates/hall/out/hall
room=$(mktemp -d) || exit 1
trap 'rm -rf "$room"' EXIT
cd "$room" || exit 1
passed=0 failed=0

# expect LABEL STATUS STDOUT STDERR: of the last run
expect() {
    printf "$3" >want.out
    printf "$4" >want.err
    if [ "$status" = "$2" ] && cmp -s out want.out && cmp -s err want.err; then
        passed=$((passed + 1))
    else
        failed=$((failed + 1))
        echo "$1: status $status"
        head -c 300 out
        head -c 300 err
    fi
}
# play FILE..: runs the program
play() {
    "$program" "$@" >out 2>err </dev/null
    status=$?
}
# script TEXT: the file s.hall, played
script() {
    printf "$1" >s.hall
    play s.hall
}
repeat() { head -c "$1" /dev/zero | tr '\0' "$2"; }

: >empty.hall
play empty.hall
expect 'an empty file' 0 'held 1\n' ''
script '\n\n# nothing\n'
expect 'no command' 0 'held 1\n' ''
script '0 find 00000000\non 0'
expect 'no last newline' 0 '0 nothing\nheld 1\n' ''
script '0 find 00000000\r\non 0\r\n'
expect 'carriage returns' 0 '0 nothing\nheld 1\n' ''
script '0 find 00000000\non 0\n0 seek 00000000\non 0\n'
expect 'no such ask' 1 '0 nothing\n' 's.hall:3: expected find, put or take\n'
script 'stop\n'
expect 'no such command' 1 '' "s.hall:1: expected a processor's number, go, on, any or arrive\n"
script '4 find 00000000\n'
expect 'no such processor' 1 '' "s.hall:1: expected a processor's number below 4\n"
script 'on 99999999999999999999999\n'
expect 'a very large processor' 1 '' "s.hall:1: expected a processor's number below 4\n"
script '0 find 0a0102\n'
expect 'a short address' 1 '' 's.hall:1: expected an address of eight hexadecimal digits\n'
script '0 find 0a0102\00003\n'
expect 'a NUL byte' 1 '' 's.hall:1: expected an address of eight hexadecimal digits\n'
script '0 put 0a000000 8 17\n'
expect 'no slash' 1 '' 's.hall:1: expected a prefix, as 0a000000/8\n'
script '0 put 0a000000/8 4294967296\n'
expect 'too large to be told' 1 '' 's.hall:1: expected a number below 4294967296\n'
script 'go 0 4294967296\n'
expect 'too many turns' 1 '' 's.hall:1: expected a number below 4294967296\n'
script 'any 18446744073709551616 1\n'
expect 'too large a seed' 1 '' 's.hall:1: expected a number below 18446744073709551616\n'
script '0 put 0a000000/8 17 put 0b000000/8 18\n'
expect 'no comma' 1 '' 's.hall:1: expected a comma or the end of the line\n'
script '0 put 0a000000/8 17,\n'
expect 'a comma too many' 1 '' 's.hall:1: expected put or take\n'
script 'on 0 1\n'
expect 'a word too many' 1 '' 's.hall:1: expected the end of the line\n'
script '0 put 0a000000/33 17\non 0\n1 put 0a000000/99999999999999999999999 17\non 1\n'
expect 'a length above 32' 0 '0 no 2\n1 no 2\nheld 1\n' ''
{ printf '# '; repeat 65534 x; printf '\non 0\n'; } >long.hall
play long.hall
expect 'a line of 65536 bytes' 0 'held 1\n' ''
{ printf '\n# '; repeat 65535 x; printf '\non 0\n'; } >long.hall
play long.hall
expect 'a line of 65537 bytes' 1 '' 'long.hall:2: expected a line of at most 65536 bytes\n'
{ printf '0 find 00000000\non 0\n'; repeat 1000000 0; } >long.hall
play long.hall
expect 'a line of a million bytes' 1 '0 nothing\n' 'long.hall:3: expected a line of at most 65536 bytes\n'
play missing.hall
expect 'a missing file' 1 '' 'missing.hall: No such file or directory (os error 2)\n'
mkdir folder.hall
play folder.hall
expect 'a folder' 1 '' 'folder.hall: Is a directory (os error 21)\n'
play empty.hall missing.hall empty.hall
expect 'the first of several is played' 1 'held 1\n' 'missing.hall: No such file or directory (os error 2)\n'
printf '0 put 00000000/0 1\non 0\n' >one.hall
printf '0 find 00000000\non 0\n' >two.hall
play one.hall two.hall
expect 'each starts fresh' 0 '0 done\nheld 1\n0 nothing\nheld 1\n' ''
printf 'on 0\nstop\n' | "$program" >out 2>err
status=$?
expect 'standard input' 1 '' "stdin:2: expected a processor's number, go, on, any or arrive\n"
yes '0 find 00000000
on 0' | head -n 8000002 | "$program" >told 2>err
status=$?
tail -n 2 told >out
expect 'turns run out' 0 '0 nothing\nheld 1\n' 'stdin:8000002: ended after 4000000 turns\n'

echo "$passed passed, $failed failed"
[ "$failed" = 0 ]
