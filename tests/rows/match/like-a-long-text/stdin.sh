# a text of 65,536 times 'a', and one with a 'b' at its end: with a way back to each `%` this would take some 10 ^ 13 steps
for end in '' b; do
  printf '{"type":"bundle","id":"bundle--00000000-0000-4000-8000-000000000001","objects":[{"type":"observed-data","spec_version":"2.1","id":"observed-data--00000000-0000-4000-8000-000000000001","created":"2021-06-10T00:00:00.000Z","modified":"2021-06-10T00:00:00.000Z","first_observed":"2021-06-10T00:00:00Z","last_observed":"2021-06-10T00:00:00Z","number_observed":1,"object_refs":["x-text--00000000-0000-4000-8000-000000000001"]},{"type":"x-text","id":"x-text--00000000-0000-4000-8000-000000000001","v":"%s%s"}]}\n' "$(head -c 65536 /dev/zero | tr '\0' a)" "$end"
done
