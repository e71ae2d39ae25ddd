# 65,536 parentheses
awk 'BEGIN { print "show"; for (n = 0; n < 65536; n++) printf "("; printf ""; for (n = 0; n < 0; n++) printf ")"; print "" }'
