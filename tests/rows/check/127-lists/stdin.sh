# 127 lists, each in the one before
head -c 127 /dev/zero | tr '\0' '['
head -c 127 /dev/zero | tr '\0' ']'
