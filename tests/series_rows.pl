#!/usr/bin/env perl
# Prints what `series` prints of the plain sender (tests/capture.pl sender groups=FRAMES), after examples/plain.sdp.
#
#   tests/series_rows.pl FRAMES
#
# A row follows from docs/FORMATS.md. A packet comes 444 ns before its read, and 960,000 ns after the packet before it or more. A drain
# tick takes 909,091 ns: bucket and buffer hold that packet alone. By linear reads packet j of a frame comes 40,000 j + 444 ns before its
# own read, which is below 1,000,000 ns, the time from read to read.
use strict;
use warnings;

my ($frames) = @ARGV;

print "run,packet,record,stamp,group,place,bucket,gapped,linear\n";
for my $frame (0 .. $frames - 1) {
    for my $place (0 .. 19) {
        my $packet = 20 * $frame + $place;
        my $stamp = 1_600_000_000_000_000_000 + 20_000_000 * $frame + 764_000 + 960_000 * $place;
        print join(",", 1, $packet, $packet + 2, $stamp, $frame, $place, 1, 1, 1), "\n";
    }
}
