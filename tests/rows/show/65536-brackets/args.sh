# 65,536 square brackets
awk 'BEGIN { print "show"; for (n = 0; n < 65536; n++) printf "["; print "" }'
