# A device that takes nothing.
"$1" < tests/program/three-segments.gx > /dev/full
