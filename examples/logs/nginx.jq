# nginx's access log as JSON:
#
#   log_format stix escape=json '{"time":"$time_iso8601","address":"$remote_addr","method":"$request_method","host":"$host",'
#     '"uri":"$request_uri","status":"$status","agent":"$http_user_agent","user":"$remote_user"}';
#
#   jq -c -L examples/logs -f examples/logs/nginx.jq access.json
include "bundle";

(.time | utc) as $time
| bundle($time; [(.address | endpoint), (.host | endpoint),
    {type: "network-traffic", src_ref: 0, dst_ref: 1, protocols: ["tcp", "http"], x_status: (.status | tonumber),
      extensions: {"http-request-ext": ({request_method: (.method | ascii_downcase), request_value: .uri,
        request_header: ({"Host": .host, "User-Agent": .agent} | solid)} | solid)}},
    (if .host != "" then {type: "url", value: ("http://" + .host + .uri)} else null end),
    (if (.user // "") != "" then {type: "user-account", account_login: .user} else null end)])
