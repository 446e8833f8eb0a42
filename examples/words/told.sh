# The words of the file `case` end with this status, and what stands behind the arrow is told, on the stream for it
# alone.
words=$(sed 's/ => .*//' case) part=$(sed 's/.* => //' case)
$words > out.txt 2> err.txt
ended=$?
[ $ended = $1 ] || echo "it ended with $ended"
[ $1 = 0 ] && told=out.txt other=err.txt || told=err.txt other=out.txt
[ -s $other ] && cat $other
grep -qF -- "$part" $told || cat $told
exit 0
