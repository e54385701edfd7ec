#!/usr/bin/env perl
# Writes a capture of a video sender to standard output: pcap, little-endian, with nanoseconds, byte for byte as crates/capture_gen makes it.
#
#   tests/capture.pl sender [NAME=NUMBER..] > a.pcap
#   tests/capture.pl flaw NUMBER [frames=NUMBER] [from=NUMBER] > a.pcap
#   tests/capture.pl usual > a.pcap
#   tests/capture.pl media [NAME=NUMBER..] > a.pcap
#   tests/capture.pl sdp [media=NUMBER] > a.sdp
#   tests/capture.pl lines [NAME=NUMBER..] > a.pcap
#   tests/capture.pl packets [NAME=NUMBER..] [then [NAME=NUMBER..]].. > a.pcap
#   tests/capture.pl colliding [count=NUMBER] > a.pcap
#
# `sender` is the plain sender: groups (frames or fields) of packets behind one packet that ends the group before them. These change it:
#
#   first=764000        when packet 0 of group 0 comes, in nanoseconds after second 1,600,000,000
#   groups=2            the groups
#   packets=20          the packets of a group
#   group_ns=20000000   nanoseconds from a group to the next
#   packet_ns=960000    nanoseconds from a packet to the next of its group
#   bunched=0           the group that has packets at one instant
#   at_once=1           how many of that group come with its packet 0, which counts too
#   extended=1          0: the extended sequence number of all packets is 0
#
# `flaw` is the self-test's capture: 0 has none, which is the plain sender; 1: five packets at once in the last frame; 2: packets a
# millisecond apart; 3: packet 10 of the last frame is missing; 4: packet 19 of the last frame is missing, and packet 18 has the marker.
# It has 2 frames or so many, and its packet numbers begin with 0 or that number, which modulo 1,000,000 is added to the seconds too.
#
# `usual` is a narrow sender at 60000/1001 frames per second, 4,320 packets a frame, by a clock that is 37 seconds behind TAI: two frames.
#
# `media` is several plain senders, at the UDP ports 50000, 50002 and so on. They take turns: each writes its first packets, then each
# the packets of its next two frames, and so on. `sdp` prints their session description, from examples/plain.sdp.
#
#   media=64            the senders
#   groups=2            the frames of each
#   begin=1             the packets of its first turn: 1, or 41 for those of two frames too
#
# `lines` is the plain sender with packets of 1,248 bytes of IPv4 that have a line header of 1,200 bytes each, captured up to it. These change it:
#
#   ticks=1800          the step of the RTP timestamp from a frame to the next
#   last=1079           the line number of the last packet of a frame; that of the first is 0, and they rise evenly, rounded down
#   tag=0               1: there is a VLAN tag before the type
#   cut=62              the bytes that are captured of each packet
#   audio=0             the packets of stereo L24 that come before at the UDP port 50002, one a millisecond, each with the marker and 48 samples
#
# `packets` is packets at the instant 1,600,000,000 s. After `then` come others, with the values given there:
#
#   from=0              the number of the first packet
#   step=1              by how much the number rises from a packet to the next
#   count=1             the packets
#   timestamp=1800      their RTP timestamp
#   marker=0            1: they have the marker
#
# `colliding` is 200,000 packets at that instant, or so many, whose numbers a sender chose for a reader that keeps 64 numbers together in a table
# of 32,768 places by a hash that is known, that of the kit's maps: all of them begin their search in the first eighth of the table.
use strict;
use warnings;
use File::Basename qw(dirname);

my $second = 1_000_000_000;
my $start = 1_600_000_000 * $second;
my $first_port = 50_000;

# The file's header: version 2.4, 262,144 bytes of a packet at most, Ethernet.
my $file_head = pack "VvvVVVV", 0xa1b23c4d, 2, 4, 0, 0, 262_144, 1;

# Ethernet, IPv4 from 192.0.2.1 to 239.0.0.1, and the source port of UDP. The destination port, length and checksum follow, then RTP, and
# as its payload the high half of the packet's number.
my $headers = pack "H*", "01005e000001" . "020000000001" . "0800" . "4500002a0000400040110000" . "c0000201" . "ef000001" . "c350";

# The packet record of a packet.
sub record {
    my ($at, $timestamp, $marker, $number, $port) = @_;
    return pack "VVVVa*nnnCCnNNn", int($at / $second), $at % $second, 56, 56, $headers, $port // $first_port, 22, 0,
        0x80, $marker ? 0xe0 : 0x60, $number % 65_536, $timestamp, 1, int($number / 65_536);
}

sub usage {
    print STDERR <<'END';
usage: capture.pl sender [NAME=NUMBER..]
       capture.pl flaw NUMBER [frames=NUMBER] [from=NUMBER]
       capture.pl usual
       capture.pl media [NAME=NUMBER..]
       capture.pl sdp [media=NUMBER]
       capture.pl lines [NAME=NUMBER..]
       capture.pl packets [NAME=NUMBER..] [then [NAME=NUMBER..]]..
       capture.pl colliding [count=NUMBER]
END
    exit 2;
}

# The numbers of these names, with those of the command line in the place of the given ones.
sub numbers {
    my %number = %{+shift};
    for my $word (@_) {
        my ($name, $value) = $word =~ /^(\w+)=(\d+)$/ or usage();
        exists $number{$name} or usage();
        $number{$name} = $value;
    }
    return \%number;
}

# The packets of the plain sender, or of one that differs: instant, RTP timestamp, marker and number of each.
sub plain_packets {
    my $is = numbers({
        first => 764_000, groups => 2, packets => 20, group_ns => 20_000_000, packet_ns => 960_000, bunched => 0, at_once => 1,
        extended => 1,
    }, @_);
    my @packets = [$start - 1_000_000, 0, 1, 0];
    for my $group (0 .. $is->{groups} - 1) {
        for my $place (0 .. $is->{packets} - 1) {
            my $late = $group == $is->{bunched} && $place < $is->{at_once} ? 0 : $is->{packet_ns} * $place;
            my $at = $start + $is->{first} + $is->{group_ns} * $group + $late;
            my $number = 1 + $is->{packets} * $group + $place;
            $number %= 65_536 if !$is->{extended};
            push @packets, [$at, 1800 * ($group + 1), $place + 1 == $is->{packets}, $number];
        }
    }
    return @packets;
}

sub sender {
    return $file_head, map { record(@$_) } plain_packets(@_);
}

sub flaw {
    my $flaw = shift // usage();
    $flaw =~ /^[0-4]$/ or usage();
    my $is = numbers({ frames => 2, from => 0 }, @_);
    my $begin = $start + $is->{from} % 1_000_000 * $second;
    my $spacing = $flaw == 2 ? 1_000_000 : 960_000;
    my $records = record($begin - 1_000_000, 0, 1, $is->{from} % 2**32);
    for my $frame (0 .. $is->{frames} - 1) {
        my $of_last = $frame == $is->{frames} - 1 ? $flaw : 0;
        for my $place (0 .. 19) {
            next if $of_last == 3 && $place == 10 || $of_last == 4 && $place == 19;
            my $late = $of_last == 1 && $place <= 4 ? 0 : $spacing * $place;
            my $at = $begin + 20_000_000 * $frame + 764_000 + $late;
            my $number = ($is->{from} + 1 + 20 * $frame + $place) % 2**32;
            $records .= record($at, 1800 * ($frame + 1), $place == ($of_last == 4 ? 18 : 19), $number);
        }
    }
    return $file_head, $records;
}

# Each packet comes a microsecond before its gapped read. A frame has 4,500 reads, of which 172 are due before that of packet 0.
sub usual {
    usage() if @_;
    my $begin = (1_601_600_000 - 37) * $second - 1_000;
    my $due = sub { return $begin + int($_[0] * 100_100_000 / 27_000) };
    my $records = record($due->(172) - 1_000_000, 0, 1, 0);
    for my $frame (0, 1) {
        for my $place (0 .. 4319) {
            my $at = $due->(4500 * $frame + 172 + $place);
            $records .= record($at, 1501 * ($frame + 1), $place == 4319, 1 + 4320 * $frame + $place);
        }
    }
    return $file_head, $records;
}

# The UDP ports of so many senders.
sub ports {
    my ($media) = @_;
    return map { $first_port + 2 * $_ } 0 .. $media - 1;
}

sub media {
    my $is = numbers({ media => 64, groups => 2, begin => 1 }, @_);
    my @packets = plain_packets("groups=$is->{groups}");
    my $records = "";
    for (my $turn = $is->{begin}; @packets; $turn = 40) {
        my @turn = splice @packets, 0, $turn;
        for my $port (ports($is->{media})) {
            $records .= record(@$_, $port) for @turn;
        }
    }
    return $file_head, $records;
}

sub sdp {
    my $is = numbers({ media => 64 }, @_);
    my $name = dirname($0) . "/../examples/plain.sdp";
    open my $in, "<:raw", $name or die "$name: $!";
    my ($session, $video) = split /(?=^m=)/m, join "", <$in>;
    return $session, map { $video =~ s/^m=video \d+/m=video $_/r } ports($is->{media});
}

# The packet record of an RTP packet with this payload and SSRC to this port, of which so many bytes are captured.
sub cut_record {
    my ($at, $port, $ssrc, $rtp, $payload, $tag, $cut) = @_;
    my $bytes = 40 + length $payload;
    my $frame = pack "H*", "01005e000001" . "020000000001" . ($tag ? "81000005" : "") . "0800";
    $frame .= pack "CCnNNH*", 0x45, 0, $bytes, 0x4000, 0x40110000, "c0000201" . "ef000001";
    $frame .= pack "nnnna*Na*", $first_port, $port, $bytes - 20, 0, $rtp, $ssrc, $payload;
    my $length = length $frame;
    $cut = $length if $cut > $length;
    return pack "VVVVa*", int($at / $second), $at % $second, $cut, $length, substr $frame, 0, $cut;
}

sub lines {
    my $is = numbers({ ticks => 1800, last => 1079, tag => 0, cut => 62, audio => 0 }, @_);
    my $records = "";
    for my $number (0 .. $is->{audio} - 1) {
        my $rtp = pack "CCnN", 0x80, 0xe1, $number, 48 * $number;
        my $samples = pack("H*", "123456edcbaa") x 48;
        $records .= cut_record($start - 100_000_000 + 1_000_000 * $number, $first_port + 2, 2, $rtp, $samples, $is->{tag}, $is->{cut});
    }
    for my $packet (plain_packets()) {
        my ($at, $timestamp, $marker, $number) = @$packet;
        my $line = int($is->{last} * (($number + 19) % 20) / 19);
        my $rtp = pack "CCnN", 0x80, $marker ? 0xe0 : 0x60, $number, $timestamp / 1800 * $is->{ticks};
        my $payload = pack "nnnn", 0, 1200, $line, 0;
        $records .= cut_record($at, $first_port, 1, $rtp, $payload . "\0" x 1200, $is->{tag}, $is->{cut});
    }
    return $file_head, $records;
}

sub packets {
    my @runs = [];
    for my $word (@_) {
        if ($word eq "then") { push @runs, [] } else { push @{$runs[-1]}, $word }
    }
    my $records = "";
    for my $run (@runs) {
        my $is = numbers({ from => 0, step => 1, count => 1, timestamp => 1800, marker => 0 }, @$run);
        $records .= record($start, $is->{timestamp}, $is->{marker}, $is->{from} + $is->{step} * $_) for 0 .. $is->{count} - 1;
    }
    return $file_head, $records;
}

# The 32 bits by which a map finds a key of 32 bits: the key twice is mixed with a seed and multiplied, and the parts of the product are joined.
sub hash_of {
    my ($key) = @_;
    my ($low, $high) = ($key ^ 0x85a3_08d3, $key ^ 0x243f_6a88);
    my ($by_low, $by_high) = (0x7f4a_7c1d, 0x9e37_79b9);
    my ($first, $last) = ($low * $by_low, $high * $by_high);
    my ($inner, $outer) = ($low * $by_high, $high * $by_low);
    my $carried = ($first >> 32) + ($inner & 0xffff_ffff) + ($outer & 0xffff_ffff);
    my $below = ($carried & 0xffff_ffff) << 32 | $first & 0xffff_ffff;
    my $hash = $below ^ $last + ($inner >> 32) + ($outer >> 32) + ($carried >> 32);
    return ($hash ^ $hash >> 32) & 0xffff_ffff;
}

sub colliding {
    my $is = numbers({ count => 200_000 }, @_);
    my $records = "";
    my $place = 0;
    for (1 .. $is->{count}) {
        $place++ while hash_of($place) % 32_768 >= 4_096;
        $records .= record($start, 1800, 0, 64 * $place++);
    }
    return $file_head, $records;
}

my %made = (
    sender => \&sender, flaw => \&flaw, usual => \&usual, media => \&media, sdp => \&sdp, lines => \&lines, packets => \&packets,
    colliding => \&colliding,
);
my $kind = shift // usage();
my @pieces = ($made{$kind} // usage())->(@ARGV);
binmode STDOUT;
print @pieces;
close STDOUT or die "capture.pl: $!\n";
