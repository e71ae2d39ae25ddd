# 3,000 logins of a, 3,000 of c, and then one of b: at that one 9,000,000 bindings would end
login() { sed "s/\"account_login\":\"a\"/\"account_login\":\"$1\"/" "$top/tests/rows/match/1024-brackets-that-hold/stdin"; }
a=$(login a) b=$(login b) c=$(login c)
for ((n = 0; n < 3000; n++)); do printf '%s\n' "$a"; done
for ((n = 0; n < 3000; n++)); do printf '%s\n' "$c"; done
printf '%s\n' "$b"
