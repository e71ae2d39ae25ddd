# Bundles of STIX 2.1 out of the events of a log, one bundle an event, for the programs beside this file.

# A UUID with this number in it.
def uuid: "00000000-0000-4000-8000-" + ("000000000000" + tostring)[-12:];

# A time of seconds since 1970, which may have a fraction, as a timestamp with six digits of a second.
def timestamp: (. * 1000000 | round) as $micros
  | ($micros / 1000000 | floor | todate | rtrimstr("Z")) + "." + ("00000" + ($micros % 1000000 | tostring))[-6:] + "Z";

# The same of a time of RFC 3339 with any offset from UTC, as `2021-06-10T10:00:04.25+0200`.
def utc: capture("^(?<day>[0-9-]{10})[T ](?<time>[0-9:]{8})(?<fraction>[.][0-9]+)?(?<sign>[+-])?(?<hours>[0-9]{2})?:?(?<minutes>[0-9]{2})?Z?$")
  | ((.day + "T" + .time + "Z") | fromdate)
    - ((if .sign == "-" then -1 else 1 end) * ((.hours // "0" | tonumber) * 3600 + (.minutes // "0" | tonumber) * 60))
    + ("0" + (.fraction // ".0") | tonumber)
  | timestamp;

# An object without what is null, empty or a fraction: STIX has no null, and Belkasim reads whole numbers.
def solid: with_entries(select(.value != null and .value != "" and .value != [] and .value != {}
  and (.value | type != "number" or . == floor)));

# An address of either kind, or the name of a domain.
def endpoint: if . == null or . == "" then null
  elif test("^[0-9]+([.][0-9]+){3}$") then {type: "ipv4-addr", value: .}
  elif test(":") then {type: "ipv6-addr", value: .}
  else {type: "domain-name", value: .} end;

# A bundle of one observation of some objects. In an object a number under a name that ends in `_ref` is the place of another
# one in the list, and so are those of a list under `_refs`; a reference to null is left out, with that object.
def bundle($first; $last; $list):
  (input_line_number * 100) as $base
  | [$list | to_entries[] | if .value == null then null else .value.type + "--" + ($base + 2 + .key | uuid) end] as $ids
  | def named: if type == "number" then $ids[.] else . end;
  [$list | to_entries[] | select(.value != null)
    | {id: $ids[.key]} + (.value | with_entries(
        if .key | endswith("_ref") then .value |= named
        elif .key | endswith("_refs") then .value |= [.[] | named | select(. != null)]
        else . end) | solid)] as $objects
  | select($objects != [])
  | {type: "bundle", id: ("bundle--" + ($base | uuid)), objects: ([{
      type: "observed-data", spec_version: "2.1", id: ("observed-data--" + ($base + 1 | uuid)),
      created: ($first[0:23] + "Z"), modified: ($first[0:23] + "Z"),
      first_observed: $first, last_observed: $last, number_observed: 1, object_refs: [$objects[].id]}] + $objects)};

# The same of an event of one moment.
def bundle($time; $list): bundle($time; $time; $list);
