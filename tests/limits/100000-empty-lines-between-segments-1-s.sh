# So many empty lines stand between.
{ printf 'segments 1\ns: !'; yes "" | head -n 100000; } | "$1"
