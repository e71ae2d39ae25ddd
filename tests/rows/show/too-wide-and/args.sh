# 65 brackets joined by AND: one more than there may be
awk 'BEGIN { print "show"; for (n = 1; n <= 65; n++) printf("%s[a:b = %d]", n > 1 ? " AND " : "", n); print "" }'
