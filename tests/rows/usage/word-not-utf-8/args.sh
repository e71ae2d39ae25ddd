printf 'show\n[a:b = \047\377\047]\n'
