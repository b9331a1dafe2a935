# a line that begins within the limit of 67,108,864 bytes and ends one byte behind it
head -c 67108865 /dev/zero | tr '\0' x >script
