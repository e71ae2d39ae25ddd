# an object of 40,000 properties, and a marking that selects each
awk 'BEGIN {
  printf "{\"type\":\"bundle\",\"id\":\"bundle--00000000-0000-4000-8000-000000000001\",\"objects\":[{\"type\":\"x-a\",\"id\":\"x-a--00000000-0000-4000-8000-000000000001\""
  for (n = 0; n < 40000; n++) printf(",\"p%d\":%d", n, n)
  printf ",\"granular_markings\":[{\"lang\":\"en\",\"selectors\":["
  for (n = 0; n < 40000; n++) printf("%s\"p%d\"", n ? "," : "", n)
  print "]}]}]}"
}'
