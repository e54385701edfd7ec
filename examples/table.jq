# Gathers JSON reports of `check` into one table, with tabs between its columns: a row for each flow, then how many reports have
# which status, the captures that are refused or cut, and those of a list that are in no report.
#
#   jq -n -r -f examples/table.jq --rawfile list LIST FOLDER/*.json
#
# Bucket, buffer and the first fail are those of the declared type, or where none is declared of N; of a flow in runs the class and the
# peaks are the worst of its runs.

# the parts of a flow that are judged: the flow itself, or some of its runs
def judged: (.runs // [.]) | to_entries | map(select(.value.types) | .value + {run: (.key + 1)});

# the entry of a judged part that the table speaks of
def own: (if .declared == "none" or .declared == null then "N" else .declared end) as $type
    | .run as $run | .types[] | select(.type == $type) + {run: $run};

def worst_class: ["narrow", "narrow linear", "wide", "none"] as $order
    | map(.class as $class | $order | index($class)) | max as $worst | if $worst == null then "-" else $order[$worst] end;

# a verdict in a word or two
def told:
    if .verdict == "runs" then "runs \(.runs | length)"
    elif .verdict == "refused" then "refused \(.fault)"
    else .verdict end;

# the greatest peak with its limit
def greatest(peak; limit): if length == 0 then "-" else max_by(peak) | "\(peak) of \(limit)" end;

def first_fail: map(select(.pass | not)) | first
    | if . then "\(.proof.model) \(.proof.from) to \(.proof.to)" + (if .run > 1 then " in run \(.run)" else "" end) else "-" end;

def row($report): judged as $judged | ($judged | map(own)) as $own
    | [$report.files[.file - 1].name, "\(.file).\(.media)", $report.status, told, ($judged | worst_class),
       ($own | greatest(.bucket_peak; .bucket_limit)), ($own | greatest(.buffer_peak; .buffer_limit)), ($own | first_fail)];

[inputs] as $reports
| (["capture", "flow", "status", "verdict", "class", "bucket", "buffer", "first fail"],
   ($reports | sort_by(.files[0].name)[] | . as $report | .flows[] | row($report)) | @tsv),
  ($reports | group_by(.status)[] | "status \(.[0].status): \(length)"),
  ($reports | map(.files[] | select(.end != "end")) | sort_by(.name)[] | "\(.end): \(.name)"),
  (($list | split("\n") - [""]) - ($reports | map(.files[].name)) | .[] | "no report: \(.)")
