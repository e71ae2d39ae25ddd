# 64 lists, each in the one before
head -c 64 /dev/zero | tr '\0' '['
head -c 64 /dev/zero | tr '\0' ']'
