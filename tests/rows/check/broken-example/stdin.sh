cat "$top/examples/broken-bundle.json"
