# One byte more than a capture may have. The fault comes before that of the magic number.
head -c 67108865 /dev/zero >capture
