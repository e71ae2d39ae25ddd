# 64 parentheses round a bracket: as many as may be open
awk 'BEGIN { print "show"; for (n = 0; n < 64; n++) printf "("; printf "[a:b=1]"; for (n = 0; n < 64; n++) printf ")"; print "" }'
