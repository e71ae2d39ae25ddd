# 2,000 brackets joined by OR
awk 'BEGIN { print "show"; for (n = 1; n <= 2000; n++) printf("%s[a:b = %d]", n > 1 ? " OR " : "", n); print "" }'
