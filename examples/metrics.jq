# Metrics for Prometheus from the lines of `watch --json`:
#
#   st2110_timing watch --json .. | jq -n --unbuffered -j -f metrics.jq
#
# For each line it prints all metrics so far, in Prometheus' text format, and a byte 0. Frames are fields if the video is interlaced.

# What is known of a video, with one more line.
def with($line):
  if $line.event == "frames" then . + {broken: $line.broken, bucket: $line.bucket, stamp: $line.stamp}
  elif $line.event == "gap" then .gaps += 1
  elif $line.event == "refused" then .refused = 1
  else . end;

# A metric: a line for each video and each `value` of it.
def metric($name; $type; $help; value):
  [to_entries[] | "st2110_\($name){media=\"\(.key)\"" + (.value | value)]
  | select(length > 0)
  | "# HELP st2110_\($name) \($help)\n# TYPE st2110_\($name) \($type)\n" + join("\n") + "\n";

def metrics:
  metric("broken_frames"; "gauge"; "Frames of the run so far that break a sender type.";
    .broken // {} | to_entries[] | ",type=\"\(.key)\"} \(.value)"),
  metric("bucket_packets"; "gauge"; "Greatest count of the bucket in the last line."; .bucket // empty | "} \(.)"),
  metric("last_frame_seconds"; "gauge"; "Capture timestamp of the last line."; .stamp // empty | "} \((. / 1000000 | floor) / 1000)"),
  metric("gaps_total"; "counter"; "Gaps in the packet numbers."; "} \(.gaps)"),
  metric("refused"; "gauge"; "1 if the flow is not judged any more."; "} \(.refused)");

foreach (inputs | select(.media)) as $line ({};
  .["\($line.media)"] |= (. // {gaps: 0, refused: 0} | with($line));
  ([metrics] | add) + "\u0000")
