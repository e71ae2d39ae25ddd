awk 'BEGIN { for (n = 1; n <= 1024; n++) printf("%s[a:b = %d]", n > 1 ? " OR " : "", n); print "" }'
