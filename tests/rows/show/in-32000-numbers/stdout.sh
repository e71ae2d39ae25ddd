awk 'BEGIN { printf "[a:b IN (1"; for (n = 1; n < 32000; n++) printf ", 1"; print ")]" }'
