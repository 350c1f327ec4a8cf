# 63 sessions hold 63 tables in three modes each, 11,907 locks at a node at once, while another one inserts 44,100 rows. Each INSERT is granted
# two locks at the segment: so 100,107 are granted there. What is printed is counted.
awk 'BEGIN {
  split("ACCESS SHARE,ROW SHARE,ROW EXCLUSIVE", modes, ",")
  print "segments 1"
  for (t = 1; t <= 64; t++) print "table t" t " (a bigint, b bigint) distributed by (a)"
  for (s = 1; s <= 63; s++) print "s" s ": BEGIN"
  for (s = 1; s <= 63; s++) for (t = 1; t <= 63; t++) for (m = 1; m <= 3; m++) print "s" s ": LOCK TABLE t" t " IN " modes[m] " MODE"
  for (i = 1; i <= 44100; i++) print "w: INSERT INTO t64 VALUES (" i ", 1)"
  for (s = 1; s <= 63; s++) print "s" s ": COMMIT"
}' | "$1" | awk '$1 ~ /\./ { told[$2]++ } $1 == "table" { rows += $3 } END { for (word in told) print word, told[word]; print "rows", rows }' | sort
