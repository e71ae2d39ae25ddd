# Sysmon's events as JSON, as winlogbeat writes them: 1 (a process was made), 3 (a connection), 11 (a file was made), 22 (a query).
#
#   jq -c -L examples/logs -f examples/logs/sysmon.jq winlogbeat.ndjson
include "bundle";

def utc_time: (.UtcTime | utc);
def name_of($path): $path | if . == null then null else split("\\")[-1] end;
def hashes_of($text): (($text // "") | split(",") | map(select(test("=")) | split("=")
  | {key: {"MD5": "MD5", "SHA1": "SHA-1", "SHA256": "SHA-256"}[.[0]], value: (.[1] | ascii_downcase)} | select(.key != null)) | from_entries);
def image($path; $hashes): if $path then {type: "file", name: name_of($path), hashes: hashes_of($hashes), x_path: $path} else null end;
def number: if . == null then null else tonumber end;

(.winlog.event_id // .event_id | tonumber) as $event
| (.winlog.event_data // .event_data)
| utc_time as $time
| if $event == 1 then
    bundle($time; [image(.Image; .Hashes), image(.ParentImage; null), {type: "user-account", account_login: .User},
      {type: "process", pid: (.ProcessId | number), command_line: .CommandLine, cwd: .CurrentDirectory, created_time: $time,
        image_ref: 0, creator_user_ref: 2, parent_ref: 4},
      {type: "process", pid: (.ParentProcessId | number), command_line: .ParentCommandLine, image_ref: 1}])
  elif $event == 3 then
    bundle($time; [(.SourceIp | endpoint), (.DestinationIp | endpoint), image(.Image; null),
      {type: "network-traffic", src_ref: 0, dst_ref: 1, src_port: (.SourcePort | number), dst_port: (.DestinationPort | number),
        protocols: [(.Protocol // "tcp" | ascii_downcase)]},
      {type: "process", pid: (.ProcessId | number), image_ref: 2, opened_connection_refs: [3]},
      ((.DestinationHostname // "") | endpoint)])
  elif $event == 11 then
    bundle($time; [image(.TargetFilename; null), image(.Image; null), {type: "process", pid: (.ProcessId | number), image_ref: 1}])
  elif $event == 22 then
    bundle($time; [{type: "domain-name", value: .QueryName}, image(.Image; null), {type: "process", pid: (.ProcessId | number), image_ref: 1}]
      + [(.QueryResults // "" | split(";")[] | select(test("^(::ffff:)?[0-9]+([.][0-9]+){3}$")) | ltrimstr("::ffff:") | endpoint)])
  else empty end
