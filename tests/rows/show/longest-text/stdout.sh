printf "[a:b = '"
head -c 65526 /dev/zero | tr '\0' x
printf "']\n"
