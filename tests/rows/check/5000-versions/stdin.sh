# 5,000 versions of one object, each a second after the one before
awk 'BEGIN {
  printf "{\"type\":\"bundle\",\"id\":\"bundle--00000000-0000-4000-8000-000000000001\",\"objects\":["
  for (n = 0; n < 5000; n++) {
    if (n) printf ","
    printf("{\"type\":\"x-a\",\"id\":\"x-a--00000000-0000-4000-8000-000000000001\",\"created\":\"2021-06-10T00:00:00.000Z\",\"modified\":\"2021-06-10T%02d:%02d:%02d.000Z\"}", n / 3600, n / 60 % 60, n % 60)
  }
  print "]}"
}'
