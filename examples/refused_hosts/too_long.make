# the limit is 4,194,304 bytes
head -c 4194305 /dev/zero | tr '\0' x >hosts
