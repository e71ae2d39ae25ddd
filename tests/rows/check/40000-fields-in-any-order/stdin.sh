# the object of 40000-selectors, its properties in another order
awk 'BEGIN {
  printf "{\"type\":\"bundle\",\"id\":\"bundle--00000000-0000-4000-8000-000000000001\",\"objects\":[{"
  for (n = 0; n < 40000; n++) printf("\"p%d\":%d,", n * 17389 % 40000, n)
  printf "\"granular_markings\":[{\"lang\":\"en\",\"selectors\":["
  for (n = 0; n < 40000; n++) printf("%s\"p%d\"", n ? "," : "", n)
  print "]}],\"type\":\"x-a\",\"id\":\"x-a--00000000-0000-4000-8000-000000000001\"}]}"
}'
