# 64 parentheses in a bracket
awk 'BEGIN { print "show"; printf "["; for (n = 0; n < 64; n++) printf "("; printf "a:b=1"; for (n = 0; n < 64; n++) printf ")"; print "]" }'
