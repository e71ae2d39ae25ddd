# 65 parentheses in a bracket
awk 'BEGIN { print "show"; printf "["; for (n = 0; n < 65; n++) printf "("; printf "a:b=1"; for (n = 0; n < 65; n++) printf ")"; print "]" }'
