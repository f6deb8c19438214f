#!/bin/sh
# install/man.sh QUAYRUDDER FOLDER DOCS: the man pages of the command and of each of its commands, made of their --help by help2man.
# DOCS is where the manual will be.
set -eu
command=$1
folder=$2
version=$("$command" --version)
see="[see also]
.BR quayrudder (1)
and its manual, $3/MANUAL.md"
# --help with one line for each option.
export COLUMNS=10000
mkdir -p "$folder"

# page NAME WORDS: help2man calls every page after the program, and joins the lines of examples.
page() {
    upper=$(echo "$1" | tr a-z A-Z)
    about=$($2 --help | head -n 1)
    echo "$see" | help2man --no-info --include=- --version-string="$version" --name="$about" "$2" |
        sed -e "s/^\.TH QUAYRUDDER /.TH $upper /" -e "s/^quayrudder \\\\- /$1 \\\\- /" \
            -e 's/^\.SS "Example:"$/.SH EXAMPLES/' -e '/^\.SH EXAMPLES/,/^\.SH "SEE/s/^quayrudder/.br\n&/' |
        gzip -9n > "$folder/$1.1.gz"
}

page quayrudder "$command"
for name in $("$command" --help | sed -n '/^Commands:/,/^$/s/^  \([a-z-]*\) .*/\1/p' | grep -vx help); do
    page "quayrudder-$name" "$command $name"
done
