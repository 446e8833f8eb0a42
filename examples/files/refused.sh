# What show, run and serve tell of an image that they refuse, and leave as it is.
cp board.img before.img
for words in "show $1" "run $1 script.txt" "serve $1 script.txt"; do
    rpmbd $words 2>&1 || echo "status $?"
    cmp before.img board.img
done
