# 64 brackets joined by AND: as many as there may be
awk 'BEGIN { print "show"; for (n = 1; n <= 64; n++) printf("%s[a:b = %d]", n > 1 ? " AND " : "", n); print "" }'
