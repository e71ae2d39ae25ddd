# the widest pattern that is read: 1,024 brackets joined by OR, under 64 qualifiers
awk 'BEGIN { print "match"; printf "("; for (n = 1; n <= 1024; n++) printf "%s[user-account:account_login=\x27a\x27]", (n == 1 ? "" : "OR")
  printf ")"; for (n = 1; n <= 64; n++) printf " WITHIN 9 SECONDS"; print "" }'
