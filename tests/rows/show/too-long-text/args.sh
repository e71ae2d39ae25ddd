# a pattern of 65,537 bytes
printf "show\n[a:b = '"
head -c 65527 /dev/zero | tr '\0' x
printf "']\n"
