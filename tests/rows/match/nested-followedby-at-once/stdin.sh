# five logins at one time, and one a second later, each of which meets every bracket
login() { sed "s/2021-06-10T00:00:00Z/$1/g" "$top/tests/rows/match/1024-brackets-that-hold/stdin"; }
for ((n = 1; n <= 5; n++)); do login 2021-06-10T00:00:00Z; done
login 2021-06-10T00:00:01Z
