# A refusal that can't be written is a fault of the sink.
printf "segments 0" | "$1" > /dev/full
