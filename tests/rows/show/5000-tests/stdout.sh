awk 'BEGIN { printf "[a:b = 1"; for (n = 0; n < 4999; n++) printf " AND a:b = 1"; print "]" }'
