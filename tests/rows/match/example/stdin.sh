cat "$top/examples/log.jsonl"
