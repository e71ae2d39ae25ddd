# a null, and then a value that nests too deep
printf '{"b":null,"c":[1.5,'
head -c 63 /dev/zero | tr '\0' '['
head -c 63 /dev/zero | tr '\0' ']'
echo ']}'
