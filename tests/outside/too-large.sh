# One byte more than a script may have.
head -c 16777217 /dev/zero | tr "\0" " " | "$1"
