# a bracket of any login and one of x by AND, eight times, and one bracket of z, each FOLLOWEDBY on the right of the one before it
awk 'BEGIN {
  print "match"
  for (n = 1; n <= 8; n++) printf "([user-account:account_login LIKE \x27%%\x27] AND [user-account:account_login = \x27x\x27]) FOLLOWEDBY %s", n < 8 ? "(" : ""
  printf "[user-account:account_login = \x27z\x27]"
  for (n = 1; n < 8; n++) printf ")"
  print ""
}'
