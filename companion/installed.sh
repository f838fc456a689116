#!/bin/sh
# Runs the installed program of this name, or tells the forms of words. At a limit on the size of files a write is to fail, and not
# to end the program by a signal.
here=$(readlink -f "$0")
program=$(dirname "$here")/../lib/kitrevasu/$(basename "$here")
case ${1-} in
    --version) head -n 1 "$program.words" >&2; exit 2 ;;
    --help | -h) cat "$program.words" >&2; exit 2 ;;
esac
trap '' XFSZ
exec "$program" "$@"
