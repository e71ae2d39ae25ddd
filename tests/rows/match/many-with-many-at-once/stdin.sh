# 13 logins at one time, each of which meets both brackets
for ((n = 1; n <= 13; n++)); do cat "$top/tests/rows/match/1024-brackets-that-hold/stdin"; done
