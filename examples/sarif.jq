# Makes SARIF 2.1.0, as code hosts read it, of a list of `ssh_audit review --form json`: a result for each finding.
#
# usage: ssh_audit explain | jq -Rn '[inputs | capture("^(?<id>F[0-9]+): (?<means>.*) - (?<do>.*)$")]' > rules.json
#        jq -n --slurpfile rules rules.json -f sarif.jq LIST > REPORT.sarif
#
# No text of a file stands in a message, for code hosts may take it for Markdown. A fingerprint has no line number, so it stays
# where lines move. A list without its total, or with a fault, is an execution that was not successful.
def uri: split("/") | map(@uri) | join("/") | gsub("%5Cx(?<h>[0-9a-f]{2})"; "%" + .h);
def soon: {F1: 9, F4: 9, F8: 7, F10: 9, F11: 8, F12: 8, F14: 8, F22: 7, F2: 6, F5: 6, F7: 5, F9: 6, F13: 5, F3: 3, F6: 3}[.] // 2;
def level: soon | if . >= 7 then "error" elif . >= 5 then "warning" else "note" end;
def place(line): [{physicalLocation: ({artifactLocation: {uri: (.file | uri)}} + if line then {region: {startLine: line}} else {} end)}];
($rules[0] | map({(.id): .}) | add) as $means
| reduce inputs as $r ({results: [], faults: [], files: [], whole: false};
    if $r.what == "total" then .whole = true
    elif $r.what == "end" then
        if $r.fault then .faults += [$r | {level: "error", descriptor: {id: .fault}, message: {text: "the file was not reviewed: fault \(.fault)"}, locations: place(null)}]
        else .files += [$r | {location: {uri: (.file | uri)}, hashes: {"sha-256": .sha256}}] end
    else .results += [$r | .findings[] as $f | {
        ruleId: $f.code, level: ($f.code | level),
        message: {text: "\($f.code)\(if $f.detail == "" then "" else " " + $f.detail end): \($means[$f.code].means). What to do: \($means[$f.code].do). Key: \(.key // "none")"},
        locations: place(.line),
        partialFingerprints: {"sshAuditReview/v1": ([$f.code, .file, .what, .key // "-", .options // .names // "-"] | join(" ") | @base64)}}] end)
| {"$schema": "https://json.schemastore.org/sarif-2.1.0.json", version: "2.1.0", runs: [{
    tool: {driver: {name: "ssh_audit review", rules: [$rules[0][] | {id, shortDescription: {text: .means}, help: {text: .do},
        defaultConfiguration: {level: (.id | level)}, properties: {tags: ["security"], "security-severity": (.id | soon | tostring)}}]}},
    columnKind: "utf16CodeUnits",
    invocations: [{executionSuccessful: (.whole and .faults == []), toolExecutionNotifications: .faults}],
    artifacts: .files, results: .results}]}
