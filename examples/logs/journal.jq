# What sshd and sudo say in the journal: logins that were accepted and refused, and commands that were run.
#
#   journalctl -o json -u ssh -t sudo | jq -c -L examples/logs -f examples/logs/journal.jq
include "bundle";

def account($login): {type: "user-account", account_login: $login, account_type: "unix"};

(.__REALTIME_TIMESTAMP | tonumber / 1000000 | timestamp) as $time
| (.SYSLOG_IDENTIFIER // ._COMM // "") as $from
| (.MESSAGE | if type == "string" then . else "" end) as $text
| if ($from | startswith("sshd")) and ($text | test("^(Accepted|Failed) ")) then
    ($text | capture("^(?<what>Accepted|Failed) (?<how>[a-z/-]+) for (invalid user )?(?<login>[^ ]*) from (?<address>[^ ]+) port (?<port>[0-9]+)")) as $login
    | bundle($time; [($login.address | endpoint), account($login.login),
      {type: "network-traffic", src_ref: 0, src_port: ($login.port | tonumber), protocols: ["tcp", "ssh"],
        x_login: ($login.what | ascii_downcase), x_method: $login.how}])
  elif $from == "sudo" and ($text | test("COMMAND=")) then
    ($text | capture("^ *(?<login>[^ ]+) : .*?USER=(?<as>[^ ]+) ; COMMAND=(?<command>.*)$")) as $sudo
    | bundle($time; [account($sudo.login), account($sudo.as),
      {type: "process", command_line: $sudo.command, creator_user_ref: 0, x_run_as: $sudo.as}])
  else empty end
