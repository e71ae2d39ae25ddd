# A log without what `match` would refuse: null, fractions and numbers past 2^53 - 1 are left out of a bundle, and a line that is no bundle is left out
# whole and told on standard error.
#
#   jq -c -R -f examples/logs/sound.jq log.jsonl | ./stix_command match PATTERN

# Whether a value isn't one that is left out.
def stays: . != null and (type != "number" or (. == floor and fabs <= 9007199254740991));

# A sum with 0 is written as a whole number also where the number was `-0`.
def mended: walk(if type == "object" then with_entries(select(.value | stays)) elif type == "array" then map(select(stays))
  elif type == "number" then . + 0 else . end);

select(test("[^ \t\r]"))
| . as $line
| (try fromjson catch null) as $value
| if ($value | type) == "object" and $value.type == "bundle" then $value | mended
  else "line \(input_line_number) left out: \($line[0:100])" | debug | empty end
