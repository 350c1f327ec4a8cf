# So many empty lines stand between.
{ yes "" | head -n 99999; printf 'segments 1'; } | "$1"
