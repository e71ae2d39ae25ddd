# one binding, of all
awk 'BEGIN { printf "64:"; for (n = 1; n <= 64; n++) printf " %d", n; print "" }'
