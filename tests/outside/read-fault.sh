# A folder can be opened, and not be read.
"$1" < tests
