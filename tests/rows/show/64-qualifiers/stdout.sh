awk 'BEGIN { printf "[a:b = 1]"; for (n = 0; n < 64; n++) printf " WITHIN 5 SECONDS"; print "" }'
