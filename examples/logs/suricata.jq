# Suricata's EVE log (eve.json): dns, http, tls, fileinfo, flow and alert events. Others are passed over.
#
#   jq -c -L examples/logs -f examples/logs/suricata.jq eve.json
include "bundle";

def traffic($protocols): {type: "network-traffic", src_ref: 0, dst_ref: 1, src_port, dst_port,
  protocols: [$protocols[] | select(. != null) | ascii_downcase]};

(.timestamp | utc) as $time
| [(.src_ip | endpoint), (.dest_ip | endpoint)] as $ends
| (.dest_port as $port | {src_port, dst_port: $port, proto, app_proto}) as $line
| if .event_type == "dns" then
    bundle($time; $ends + [({src_port: $line.src_port, dst_port: $line.dst_port} | traffic([$line.proto, "dns"])),
      ((.dns.rrname // .dns.queries[0].rrname // null) | if . then {type: "domain-name", value: .} else null end)])
  elif .event_type == "http" then
    .http as $http
    | bundle($time; $ends + [
      (({src_port: $line.src_port, dst_port: $line.dst_port} | traffic([$line.proto, "http"])) + {extensions: {"http-request-ext": ({
        request_method: (($http.http_method // "get") | ascii_downcase), request_value: ($http.url // "/"),
        request_header: ({"Host": $http.hostname, "User-Agent": $http.http_user_agent} | solid)} | solid)}}),
      ($http.hostname | endpoint),
      (if $http.hostname and $http.url then {type: "url", value: ("http://" + $http.hostname + $http.url)} else null end)])
  elif .event_type == "tls" then
    .tls as $tls
    | bundle($time; $ends + [({src_port: $line.src_port, dst_port: $line.dst_port} | traffic([$line.proto, "tls"])),
      ($tls.sni | endpoint),
      (if $tls.subject or $tls.issuerdn or $tls.serial then {type: "x509-certificate", subject: $tls.subject, issuer: $tls.issuerdn,
        serial_number: $tls.serial} else null end)])
  elif .event_type == "fileinfo" then
    .fileinfo as $file
    | bundle($time; $ends + [({src_port: $line.src_port, dst_port: $line.dst_port} | traffic([$line.proto, $line.app_proto])),
      ({type: "file", name: ($file.filename | if . then split("/")[-1] else . end), size: $file.size,
        hashes: ({"MD5": $file.md5, "SHA-1": $file.sha1, "SHA-256": $file.sha256} | solid)} | solid
        | if .name or .hashes then . else null end)])
  elif .event_type == "flow" then
    bundle((.flow.start // .timestamp | utc); (.flow.end // .timestamp | utc); $ends
      + [({src_port: $line.src_port, dst_port: $line.dst_port} | traffic([$line.proto, $line.app_proto]))])
  elif .event_type == "alert" then
    .alert as $alert
    | bundle($time; $ends + [(({src_port: $line.src_port, dst_port: $line.dst_port} | traffic([$line.proto, $line.app_proto]))
      + {x_alert_signature: $alert.signature, x_alert_id: $alert.signature_id, x_alert_severity: $alert.severity})])
  else empty end
