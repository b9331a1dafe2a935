# a table of 4,194,304 bytes is read
head -c 4194304 /dev/zero | tr '\0' x >hosts
