# 63 brackets, each FOLLOWEDBY on the right of the one before it
awk 'BEGIN {
  print "match"
  for (n = 1; n <= 63; n++) printf "%s[user-account:account_login LIKE \x27%%\x27]", (n == 1 ? "" : n < 63 ? " FOLLOWEDBY (" : " FOLLOWEDBY ")
  for (n = 2; n < 63; n++) printf ")"
  print ""
}'
