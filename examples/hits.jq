# From the numbers of a listing to the events: for each line of `match`, `stix_hunt` or `stix_alerts`, its observations, each
# with its number, its identifier, when it was first and last observed, and the objects that it refers to.
#
#   ./stix_command match PATTERN < log.jsonl > listing
#   jq -n -r --rawfile listing listing -f examples/hits.jq log.jsonl

# A time in digits that stand in its order.
def digits: rtrimstr("Z") | split(".") | (.[0] // "") + ((.[1] // "") + "000000000")[0:9];

# The observations that a line names.
def numbers: (if test("^alert ") then split(" ")[1:2] elif test(": ") then split(": ")[1] | split(" ") else [] end)
  | map(select(test("^[0-9]+$")) | tonumber);

# Numbered as the programs do: bundle by bundle, those of a bundle by `last_observed`, equal ones as they stand.
# A reference finds the last version of its object; the digits of a UUID may be of either case.
[inputs | (.objects // []) as $objects
  | ($objects | sort_by(.modified // "" | digits) | map({key: .id | ascii_downcase, value: .}) | from_entries) as $found
  | [$objects[] | select(.type == "observed-data")] | sort_by(.last_observed | digits)[]
  | {id, first_observed, last_observed, objects: [.object_refs[] | $found[ascii_downcase] | select(. != null)]}] as $seen
| $listing | split("\n")[] | select(. != "")
| ., (numbers[] as $n | $seen[$n - 1]
    | "  \($n) \(.id) \(.first_observed) \(.last_observed)", (.objects[] | "    " + tojson))
