# 14 logins, a second apart, each of which meets both brackets
for ((n = 1; n <= 14; n++)); do sed "s/2021-06-10T00:00:00Z/2021-06-10T00:00:$(printf %02d "$n")Z/g" "$top/tests/rows/match/1024-brackets-that-hold/stdin"; done
