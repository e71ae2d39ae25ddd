# AND binds more tightly than OR, 40 times over
awk 'BEGIN { print "show"; for (n = 0; n < 40; n++) printf "[a:b=1] AND [a:b=1] OR "; print "[a:b=1]" }'
