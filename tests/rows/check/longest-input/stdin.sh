# a bundle, and spaces up to 67,108,864 bytes: as many as there may be
bundle='{"type":"bundle","id":"bundle--00000000-0000-4000-8000-000000000001","objects":[{"created":"2021-06-10T00:00:00.000Z","id":"identity--00000000-0000-4000-8000-000000000001","modified":"2021-06-10T00:00:00.000Z","name":"N","spec_version":"2.1","type":"identity"}]}'
printf '%s' "$bundle"
head -c $((67108864 - ${#bundle})) /dev/zero | tr '\0' ' '
