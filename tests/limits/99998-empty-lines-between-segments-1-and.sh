# So many empty lines stand between.
{ printf 'segments 1\n'; yes "" | head -n 99998; printf 's: !'; } | "$1"
