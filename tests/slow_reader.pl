#!/usr/bin/env perl
# Runs a command whose standard output has little room and a slow reader, and prints what was read. Its exit status is the command's.
#
#   tests/slow_reader.pl KIND COMMAND..
#
# KIND is `pipe` or `socket`, which don't wait (O_NONBLOCK): a write takes what there is room for, and fails where there is none;
# `waiting_pipe`, which waits; or `gone`, a pipe that nobody reads, with SIGPIPE ignored. The pipes hold 4,096 bytes, and the socket
# as little as the system lets it. The reader takes 2,000 bytes at most, and rests a millisecond after each.
use strict;
use warnings;
use Fcntl qw(F_GETFL F_SETFL O_NONBLOCK);
use Socket qw(AF_UNIX SOCK_STREAM PF_UNSPEC SOL_SOCKET SO_SNDBUF);

my $set_pipe_size = 1031;    # F_SETPIPE_SZ of Linux
my ($kind, @command) = @ARGV;

# the two ends: what is read, and what the command writes on
sub ends {
    my ($reader, $writer);
    if ($kind eq "socket") {
        socketpair $reader, $writer, AF_UNIX, SOCK_STREAM, PF_UNSPEC or die "socketpair: $!";
        setsockopt $writer, SOL_SOCKET, SO_SNDBUF, pack("i", 1) or die "SO_SNDBUF: $!";
    } else {
        pipe $reader, $writer or die "pipe: $!";
        fcntl $writer, $set_pipe_size, 4096 or die "F_SETPIPE_SZ: $!";
    }
    return ($reader, $writer);
}

sub let_it_not_wait {
    my ($end) = @_;
    my $flags = fcntl $end, F_GETFL, 0 or die "F_GETFL: $!";
    fcntl $end, F_SETFL, $flags | O_NONBLOCK or die "F_SETFL: $!";
}

sub copy_slowly {
    my ($reader) = @_;
    while (sysread $reader, my $piece, 2000) {
        print $piece;
        select undef, undef, undef, 0.001;
    }
}

my ($reader, $writer) = ends();
let_it_not_wait($writer) if $kind eq "pipe" || $kind eq "socket";
if ($kind eq "gone") {
    close $reader;
    $SIG{PIPE} = "IGNORE";
}
my $child = fork // die "fork: $!";
if ($child == 0) {
    open STDOUT, ">&", $writer or die "standard output: $!";
    close $writer;
    exec @command or die "$command[0]: $!";
}
close $writer;
binmode STDOUT;
copy_slowly($reader) if $kind ne "gone";
waitpid $child, 0;
exit($? & 127 ? 128 + ($? & 127) : $? >> 8);
