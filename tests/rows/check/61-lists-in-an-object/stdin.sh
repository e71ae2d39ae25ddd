# an object at level 3 of its bundle, and in it 61 lists, each in the one before
printf '%s' '{"type":"bundle","id":"bundle--00000000-0000-4000-8000-000000000001","objects":[{"type":"x-a","id":"x-a--00000000-0000-4000-8000-000000000001","deep":'
head -c 61 /dev/zero | tr '\0' '['
head -c 61 /dev/zero | tr '\0' ']'
echo '}]}'
