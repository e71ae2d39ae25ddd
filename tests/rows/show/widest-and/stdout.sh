awk 'BEGIN { for (n = 1; n <= 64; n++) printf("%s[a:b = %d]", n > 1 ? " AND " : "", n); print "" }'
