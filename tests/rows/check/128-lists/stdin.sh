# 128 lists, each in the one before
head -c 128 /dev/zero | tr '\0' '['
head -c 128 /dev/zero | tr '\0' ']'
