# 65 objects, each in a field of the one before
awk 'BEGIN { for (n = 1; n < 65; n++) printf "{\"a\":"; printf "{}"; for (n = 1; n < 65; n++) printf "}" }'
