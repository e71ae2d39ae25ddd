# 1,024 brackets joined by OR: as many as there may be
awk 'BEGIN { print "show"; for (n = 1; n <= 1024; n++) printf("%s[a:b = %d]", n > 1 ? " OR " : "", n); print "" }'
