# 62 logins, the first three at one time, the others a second apart, each of which meets every bracket: one too few for a binding
login() { sed "s/2021-06-10T00:00:00Z/$1/g" "$top/tests/rows/match/1024-brackets-that-hold/stdin"; }
for ((n = 1; n <= 3; n++)); do login 2021-06-10T00:00:00Z; done
for ((n = 1; n <= 59; n++)); do login "2021-06-10T00:00:$(printf %02d "$n")Z"; done
