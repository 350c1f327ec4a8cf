# Each line takes 129 events: its start, and at each of 16 segments four messages there and four back. So 1,000,000 events are
# 7,751 lines and 121 events more, which are past the 97th, at which a line is answered.
answers=$(mktemp)
{
  printf 'segments 16\ntable t (a bigint) distributed by (a)\n'
  yes "s: INSERT INTO t VALUES (0), (1), (2), (3), (4), (5), (6), (7), (8), (9), (10), (11), (12), (13), (14), (15)" | head -n 8000
} | "$1" > "$answers"
status=$?
tail -n 2 "$answers"
rm -f "$answers"
exit "$status"
