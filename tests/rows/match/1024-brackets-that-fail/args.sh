# the widest pattern that is read: 1,024 brackets joined by OR
awk 'BEGIN { print "match"; for (n = 1; n <= 1024; n++) printf "%s[user-account:account_login=\x27b\x27]", (n == 1 ? "" : "OR"); print "" }'
