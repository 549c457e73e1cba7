#!/bin/sh
# A tool of mathlay as it is installed: run by the first Python that has fontTools, or else by the first one.
here=$(dirname "$(readlink -f "$0")")
tool=$here/../share/mathlay/tools/@TOOL@
for python in python3 /usr/bin/python3; do
    "$python" -c 'import fontTools' 2>/dev/null && exec "$python" -B "$tool" "$@"
done
exec python3 -B "$tool" "$@"
