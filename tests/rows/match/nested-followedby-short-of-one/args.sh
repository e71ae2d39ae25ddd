# three brackets of x, eight of a and one of z, each FOLLOWEDBY on the right of the one before it
awk 'BEGIN {
  print "match"
  for (n = 1; n <= 12; n++)
    printf "%s[user-account:account_login = \x27%s\x27]", (n == 1 ? "" : n < 12 ? " FOLLOWEDBY (" : " FOLLOWEDBY "), n <= 3 ? "x" : n < 12 ? "a" : "z"
  for (n = 2; n < 12; n++) printf ")"
  print ""
}'
