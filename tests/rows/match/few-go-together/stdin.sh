# 12 logins at one time, each of which meets every bracket. What one repeat needs is six of them, in 83,160 ways, of which two have none
# in common in 3,742,200: crowded. Eleven make 41,580, and no two
for ((n = 1; n <= 12; n++)); do cat "$top/tests/rows/match/1024-brackets-that-hold/stdin"; done
