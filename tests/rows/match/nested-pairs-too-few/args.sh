# a pair of brackets of a by AND, 13 times, and one bracket of z, each FOLLOWEDBY on the right of the one before it
awk 'BEGIN {
  print "match"
  for (n = 1; n <= 13; n++) printf "([user-account:account_login = \x27a\x27] AND [user-account:account_login = \x27a\x27]) FOLLOWEDBY %s", n < 13 ? "(" : ""
  printf "[user-account:account_login = \x27z\x27]"
  for (n = 1; n < 13; n++) printf ")"
  print ""
}'
