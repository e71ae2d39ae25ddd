# 64 brackets joined by FOLLOWEDBY: as many as there may be
awk 'BEGIN { print "show"; for (n = 1; n <= 64; n++) printf("%s[a:b = %d]", n > 1 ? " FOLLOWEDBY " : "", n); print "" }'
