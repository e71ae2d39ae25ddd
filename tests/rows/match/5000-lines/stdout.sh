awk 'BEGIN { for (n = 1; n <= 5000; n += 2) print n ": " n }'
