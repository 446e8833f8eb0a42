# Performs words over a fresh image, with output that takes so many bytes: a file that may have no more. Says how that
# ends, and of a fault that can't be told whole whether it ends so too.
room=$1
shift
narrow() { truncate -s 0 $1; truncate -s $((1048576 - $2)) $1; }
limited() { (trap '' XFSZ; ulimit -f 1024; exec "$@"); }
rpmbd format board.toml > out.txt
narrow out.txt $room
limited rpmbd "$@" >> out.txt 2> err.txt
ended=$?
cat err.txt
echo "status $ended, $((1048576 - $(stat -c %s out.txt))) left"
rpmbd format board.toml > out.txt
narrow out.txt $room
narrow err.txt 7
limited rpmbd "$@" >> out.txt 2>> err.txt
untold=$?
[ $untold = $ended ] || echo "untold with status $untold"
