# A text's place is by FNV-1a of 64 bits, as Python gives it, and the remainder by the number of segments. The published values for
# '', 'a' and 'foobar' are cbf29ce484222325, af63dc4c8601ec8c and 85944171f73967e8.
for segments in 7 10 16; do
  echo "of $segments"
  printf "segments %s\ntable t (a text) distributed by (a)\ns: INSERT INTO t VALUES (''), ('a'), ('foobar'), ('\303\244'), ('hello world')\n" "$segments" |
    "$1" --trace | sed -n 's/^  write 1 1 \([0-9]*\) t 1\.1\.\([0-9]\) .*/row \2 at segment \1/p' | sort
done
