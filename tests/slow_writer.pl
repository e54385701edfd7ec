#!/usr/bin/env perl
# Writes a file on standard output, so many bytes at a time, and rests so many milliseconds after each write.
#
#   tests/slow_writer.pl FILE BYTES MILLISECONDS
use strict;
use warnings;

my ($name, $size, $rest) = @ARGV;

open my $in, "<:raw", $name or die "$name: $!";
while (my $count = sysread $in, my $piece, $size) {
    syswrite(STDOUT, $piece) == $count or die "a piece wasn't written: $!";
    select undef, undef, undef, $rest / 1000;
}
