# 1,000,000 lists, each in the one before
head -c 1000000 /dev/zero | tr '\0' '['
head -c 1000000 /dev/zero | tr '\0' ']'
