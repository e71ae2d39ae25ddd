# a binding for each bracket. The ORs lean to the left, so a bracket but the first is the right side of one, which lies on
# the left of those behind it
awk 'BEGIN { for (n = 1; n <= 1024; n++) { printf "1:"; for (m = (n == 1 ? 2 : n + 1); m <= 1024; m++) printf " L"; print (n == 1 ? " 1" : " R 1") } }'
