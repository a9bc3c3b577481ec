#!/bin/sh
# As a C compiler: makes an object of one file with -c, else one object of all that is named, with what they need of the C library, for
# `rvcfi rewrite` or `rvcfi link`. Written by tools/sysroot.py.
here=@HERE@
output=a.out
next=
for word; do
    case $next$word in
        output*) output=$word next= ; continue ;;
        -c | -S | -E | -M | -MM | -fsyntax-only | -v | -### | --version | -dump* | -print-*) only=yes ;;
        -o) next=output ;;
        -o*) output=${word#-o} ;;
    esac
done
compile() {
    @COMPILE@ "$@"
}
if [ "$only" ] || [ $# = 0 ]; then
    compile "$@"
    exit
fi
compile -nostdlib -r @JOIN@ "$here/lib/start.o" "$@" -L"$here/lib" "$here/lib/libc.a" || exit
names=$(@NM@ "$output") || exit
missing=$(echo "$names" | sed -n 's/^ *[Uw] //p' | sort | tr '\n' ' ')
if [ "$missing" ]; then
    echo "cc: nothing defines $missing" >&2
    exit 1
fi
case "$names " in
    *" longjmp
"* | *" longjmp ") echo "cc: $output names longjmp: a run of the hardened program that comes to it ends in __cfi_bad_return" >&2 ;;
esac
