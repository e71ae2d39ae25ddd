# a pattern of 65,536 bytes
printf "show\n[a:b = '"
head -c 65526 /dev/zero | tr '\0' x
printf "']\n"
