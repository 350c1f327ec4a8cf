# So many empty lines stand between.
{ yes "" | head -n 100000; } | "$1"
