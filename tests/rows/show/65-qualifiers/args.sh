# 65 qualifiers: the last one begins at 9 + 64 * 17 + 1
awk 'BEGIN { print "show"; printf "[a:b = 1]"; for (n = 0; n < 65; n++) printf " WITHIN 5 SECONDS"; print "" }'
