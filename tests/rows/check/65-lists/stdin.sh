# 65 lists, each in the one before
head -c 65 /dev/zero | tr '\0' '['
head -c 65 /dev/zero | tr '\0' ']'
