# As many bytes as a script may have, on one line that is skipped.
head -c 16777216 /dev/zero | tr "\0" " " | "$1"
