# Puts bytes over those of a file, from a place on.
printf "$3" | dd of="$1" seek="$2" oflag=seek_bytes conv=notrunc status=none
