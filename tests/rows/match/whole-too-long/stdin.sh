# 67108865 spaces
head -c 67108865 /dev/zero | tr "\0" " "
