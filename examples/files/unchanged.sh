# Performs a command, which leaves the image as it is, and ends with its status.
cp board.img before.img
rpmbd "$@"
ended=$?
cmp before.img board.img
exit $ended
