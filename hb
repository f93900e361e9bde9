#!/bin/sh
# Runs programs from files, and shows where and why one stopped: ./hb help. This file only finds Python.
here=$(dirname -- "$(readlink -f -- "$0")")
if ! python=$(command -v python3); then
    echo "hb: python3 is not on the PATH, and hb needs it; without it, ./hbird run < FILE runs a program" >&2
    exit 70
fi
exec "$python" -B "$here/front/hb.py" "$@"
