cat "$top/examples/bundle.json"
