awk 'BEGIN { for (n = 0; n < 40; n++) printf "[a:b = 1] AND [a:b = 1] OR "; print "[a:b = 1]" }'
