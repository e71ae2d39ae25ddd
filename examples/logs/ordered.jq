# A log whose lines are up to so many seconds out of order, in order of time: a line is held until one comes that is later by
# that much. `match` asks for lines in the order of `last_observed`.
#
#   tail -f log.jsonl | jq -n -c --unbuffered --argjson seconds 10 -f examples/logs/ordered.jq | ./stix_command match PATTERN
#
# A file that isn't too large is sorted at once: `jq -c -n --argjson seconds 1e12 -f examples/logs/ordered.jq log.jsonl`.

# A time in seconds and digits, which stand in its order.
def time: rtrimstr("Z") | split(".") | [(.[0] + "Z" | fromdate), ((.[1] // "") + "000000000")[0:9]];
def last_time: [.objects[]? | select(.type == "observed-data") | .last_observed | time] | max // [0, ""];

foreach (inputs, null) as $bundle ({held: [], newest: 0};
  if $bundle == null then .out = .held
  else ($bundle | last_time) as $time
    | .held = (.held + [{time: $time, bundle: $bundle}] | sort_by(.time))
    | .newest = ([.newest, $time[0]] | max)
    | (.newest - $seconds) as $until
    | .out = [.held[] | select(.time[0] <= $until)]
    | .held = [.held[] | select(.time[0] > $until)]
  end;
  .out[].bundle)
