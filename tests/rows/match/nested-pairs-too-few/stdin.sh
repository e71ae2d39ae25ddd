# 25 logins of a at one time, and one of z a second later: 13 pairs need 26
login() { sed "s/\"account_login\":\"a\"/\"account_login\":\"$1\"/; s/2021-06-10T00:00:00Z/$2/g" "$top/tests/rows/match/1024-brackets-that-hold/stdin"; }
for ((n = 1; n <= 25; n++)); do login a 2021-06-10T00:00:00Z; done
login z 2021-06-10T00:00:01Z
