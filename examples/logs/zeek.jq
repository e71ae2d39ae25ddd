# Zeek's logs as JSON (conn, dns, http, files, ssl), each in a file of its own or all in one with `_path`.
#
#   jq -c -L examples/logs -f examples/logs/zeek.jq conn.log
include "bundle";

def traffic($name): {type: "network-traffic", src_ref: 0, dst_ref: 1, src_port: .["id.orig_p"], dst_port: .["id.resp_p"],
  protocols: [(.proto // "tcp"), $name | select(. != null and . != "-") | ascii_downcase]};

# Which log a line is of, where it doesn't say so.
def log_name: ._path // (if has("conn_state") then "conn" elif has("query") or has("qtype") then "dns"
  elif has("method") or has("user_agent") then "http" elif has("cipher") or has("server_name") then "ssl"
  elif has("fuid") and has("mime_type") or has("md5") or has("sha256") then "files" else "other" end);

(.ts | if type == "number" then timestamp else utc end) as $time
| [(.["id.orig_h"] | endpoint), (.["id.resp_h"] | endpoint)] as $ends
| log_name as $name
| if $name == "conn" then
    bundle($time; ((.ts | if type == "number" then . else (utc | .[0:19] + "Z" | fromdate) end) + (.duration // 0) | timestamp);
      $ends + [traffic(.service)])
  elif $name == "dns" then
    bundle($time; [$ends[0], $ends[1], traffic("dns"),
      (if .query then {type: "domain-name", value: .query, resolves_to_refs: [range(4; 4 + ((.answers // []) | length))]} else null end)]
      + [(.answers // [])[] | endpoint])
  elif $name == "http" then
    bundle($time; $ends + [(traffic("http") + {extensions: {"http-request-ext": ({request_method: ((.method // "get") | ascii_downcase),
        request_value: (.uri // "/"), request_header: ({"Host": .host, "User-Agent": .user_agent} | solid)} | solid)}}),
      (.host | endpoint), (if .host and .uri then {type: "url", value: ("http://" + .host + .uri)} else null end)])
  elif $name == "ssl" then
    bundle($time; $ends + [traffic("tls"), (.server_name | endpoint),
      (if .subject or .issuer then {type: "x509-certificate", subject, issuer} else null end)])
  elif $name == "files" then
    bundle($time; [({type: "file", name: .filename, size: (.total_bytes // .seen_bytes), mime_type,
        hashes: ({"MD5": .md5, "SHA-1": .sha1, "SHA-256": .sha256} | solid)} | solid | if .name or .hashes then . else null end)]
      + [(.tx_hosts // [])[] | endpoint] + [(.rx_hosts // [])[] | endpoint])
  else empty end
