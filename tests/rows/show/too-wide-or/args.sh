# 1,025 brackets joined by OR: one more than there may be
awk 'BEGIN { print "show"; for (n = 1; n <= 1025; n++) printf("%s[a:b = %d]", n > 1 ? " OR " : "", n); print "" }'
