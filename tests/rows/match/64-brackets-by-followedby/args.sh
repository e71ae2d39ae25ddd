# as many brackets as bind different observations: each holds for one line of its own
awk 'BEGIN { print "match"; for (n = 1; n <= 64; n++) printf "%s[user-account:account_login=\x27%d\x27]", (n == 1 ? "" : "FOLLOWEDBY"), n; print "" }'
