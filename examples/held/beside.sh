# Each command beside each other one. The output of the first is a pipe that is full, so that it waits there, and holds
# the image.
cp board.img fresh.img
cp fresh.img upgraded.img
printf '\x02' | dd of=upgraded.img seek=512 oflag=seek_bytes conv=notrunc status=none
words() { case $1 in run | serve) echo "$1 board.toml script.txt" ;; *) echo "$1 board.toml" ;; esac; }
for first in format show upgrade run serve; do
    for second in format show upgrade run serve; do
        cp fresh.img board.img
        rm -f full
        mkfifo full
        exec 3<> full
        head -c 65536 /dev/zero >&3
        rpmbd $(words $first) >&3 3>&- &
        for _ in {1..300}; do
            grep -q ":$(stat -c %i board.img) " /proc/locks && break
            sleep 0.01
        done
        rpmbd $(words $second) > told.txt 2>&1
        ended=$?
        head -c 65536 <&3 > drained
        wait $!
        echo "$first and $second: $? and $ended"
        [ $first = upgrade ] && left=upgraded.img || left=fresh.img
        cmp $left board.img
    done
done
