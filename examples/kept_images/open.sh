# Opens the kept image $1, whose listing is $2: it is shown, the blocks 3 and 4 of guest 0 are read under its key, it is
# upgraded and shown once more, and guest 0 goes on with a write of the blocks 100 and 101, which a listing has then.
gzip -dc "$1.gz" > board.img
rpmbd show board.toml | cmp - "$2"
sed -n 's/^block 0 [34] //p' "$2" > blocks
rpmb do board.toml read --guest 0 --key @key.hex --address 3 --count 2 | od -An -v -tx1 -w256 | tr -d ' ' | cmp - blocks
rpmbd upgrade board.toml
rpmbd show board.toml | cmp - "$2"
rpmb do board.toml write --guest 0 --key @key.hex --address 100 --file newer.txt | grep -o 'result [^,]*, counter [0-9]*'
rpmbd show board.toml | grep -c '^block 0 10[01] '
