# logins of 'a' at 0, 5 and so on to 55 seconds
for ((s = 0; s < 60; s += 5)); do
  printf '{"type":"bundle","id":"bundle--00000000-0000-4000-8000-000000000001","objects":[{"type":"observed-data","spec_version":"2.1","id":"observed-data--00000000-0000-4000-8000-000000000001","created":"2021-06-10T00:00:00.000Z","modified":"2021-06-10T00:00:00.000Z","first_observed":"2021-06-10T00:00:%02dZ","last_observed":"2021-06-10T00:00:%02dZ","number_observed":1,"object_refs":["user-account--00000000-0000-4000-8000-000000000001"]},{"type":"user-account","id":"user-account--00000000-0000-4000-8000-000000000001","account_login":"a"}]}\n' $s $s
done
