#!/bin/sh
# run.sh QUAYRUDDER FOLDER: makes a small archive and one of 20,000 holdings, and tries their reports in headless Chromium.
set -eu
here=$(realpath "$(dirname "$0")")
command=$(realpath "$1")
"$here/archive.sh" "$command" "$2" > /dev/null
cd "$2"
"$here/../../cli/tiny_frame.sh" "$command" > /dev/null
"$command" open one.sfrm --form 1 --room 0 -o tiny > /dev/null
"$command" keep tiny 2031-11-02 > /dev/null
"$(dirname "$command")/examples/many_holdings" tiny many 20000
exec /usr/bin/python3 -B "$here/browser.py" "$command" .
