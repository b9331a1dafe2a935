# one byte less, and the line is too long for a line alone
head -c 67108864 /dev/zero | tr '\0' x >script
