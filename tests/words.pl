# Finds phrases in pages. tests/words.sh calls it.
#
#   perl words.pl [--from FOLDER] FILE..      files of FOLDER are printed without it
#
# Code isn't looked at: blocks between lines of three backticks, text between two backticks, literal blocks and quotes of a man page,
# and the targets of links. A phrase may go on in the next line.
#
# A pattern can't tell a good use of these from a bad one, so they aren't looked for:
# - `timestamp` alone: whether RTP's or the capture's is meant is clear from what stands beside it, or isn't;
# - `record`: it is the right word where `packet record of the capture` stood before;
# - `proof`: nearly all are those of the prover; of a violation only the key of the JSON has this name, and that is code;
# - `tells` and `says` of anything but code and what it prints: a page, a clause, a standard may say something;
# - `words` in plain words, of 32 bits, or of a picture; `text` beside JSON; `how often` and `fails` in a sentence; `cut` of a capture;
#   `row` of a table.
use strict;
use warnings;

# What stands for code (C) and for the name of a page (P).
my ($C, $P) = ("\x01", "\x02");
my $said = '(?:says?|said|tells?|told)';

# A pattern, what to write, and which lines it doesn't hold in. A space stands for any blanks, also a line's end.
my @RULES = (
    # arguments
    ['\b(?:(?:a|each|every|any|the) )?lines? of words\b', 'command line'],
    ['\ball words\b(?! and)', 'all arguments, command lines'],
    ['\b(?:order of|reads?|hands?|gives?|prints?|memory for|that|where|after) the words\b(?! (?:of|in) (?:its|their|the)\b)', 'arguments'],
    ['\bthe words (?=(?:are|aren\'t|say|don\'t|give|make|alone|after|of (?:a|an|all|every|each|one)) ?)', 'arguments, command line'],
    ['\b(?:in two|two|no) words\b', 'arguments'],
    ['\b[Ww]ords that (?:are|aren\'t)\b', 'arguments that ..'],
    ['\bword that begins with\b|\bfirst word is the command\b', 'argument'],
    ['^#+ Words$|^Words:$|\| [Ww]ords(?= \|)', 'Command line, Arguments'],
    ['\bno request\b', 'invalid command line, usage error'],
    # contents
    ['\b[Aa] text\b(?! (?:line|file|editor|format|report))', 'contents of the file, a string'],
    ['(?<!classic[\s])\btexts? of (?:a|an|each|every|the|all) (?:name|file|capture|description|report|input|source)s?\b(?!\')', 'contents of the file'],
    ['(?<!whole[\s])\btexts\b(?! and statuses)', 'contents of the files'],
    ['\b(?:its|the|their) text (?:is|isn\'t|stays)\b', 'contents of the file, output'],
    ['\b[Aa] front\b', 'a prefix, the first part of the output'],
    # what code does
    ["$C+ (?:also |then |alone )?$said\\b(?! apart)", 'prints, returns, reports, contains, gives'],
    ["\\b(?:program|command|script|report|status|standard error|output|shelf|source|reader|intake|system|kernel|scan)"
        . " (?:that )?(?:also )?$said\\b(?! apart)", 'prints, returns, reports, contains'],
    ['\b(?:is|are|was|were|be|been|isn\'t|aren\'t) told\b(?! apart)', 'is printed, is reported'],
    # the rest
    ['\b[Ww]hence\b', 'source, cause'],
    ['\b[Mm]end(?:s|ed|ing)?\b', 'fix'],
    ['\b[Ll]east faulty\b', 'first invalid'],
    ['\brefused (?:by|for) (?:its|their) bytes\b', 'malformed'],
    ['\b[Ss]tamps?\b', 'timestamp, capture timestamp'],
    ['(?:^#+ |\*|\| )[Hh]ow often\b', 'histogram'],
    ['\bover each other\b', 'overlaid'],
    ['\blacks? (?:a|the|one) packet\b', 'underflows'],
    ['\bha(?:s|ve|d) no place for\b', 'overflows'],
    ['\*cut\*|\bcuts? stands?\b|\b(?:no|its) cuts?\b|\b(?:the|own|flow\'s|finds|by) cuts\b|\bfaults, cuts\b|\bcuts, runs\b|\bflow is cut\b|\bthe cut or the\b',
        'gap'],
    ['\bgroups?\b', 'frame or field', qr/address|IGMP|multicast|udp|join|senders? to/],
    ['\brows? of (?:(?:a|an|the|each|every|all|two|small) )*(?:joined )?(?:flows?|reports?|captures?|files?|jobs?|media|keys?)\b', 'result of a flow'],
    ['\bflow\'s row\b|\bbook of rows\b|\bposts? (?:its|their|the) rows?\b|\b[Rr]ows are posted\b|\bthe rows by\b', 'result of a flow'],
    ['\b(?:[Aa]|[Ee]ach|[Ee]very|[Oo]ne|[Nn]o|[Tt]his|[Ss]ome|first|second) fail\b(?!-)', 'violation; of a type: a type that fails'],
    ['\b(?:[Tt]he|its|[Aa]ll|own|[Tt]hese|of) fails\b', 'violations'],
    ['\b[Tt]he fail\b', 'the violation'],
    ['\b(?:[Ll]ulls?|[Bb]rims?|calm)\b', 'quiet period, threshold'],
    ['\bmachine that others share\b|\banother day\'s figures?\b|\bthe day before\b', 'a table: date, processor, command, figure'],
    ['\b[Nn]othing is said\b|\b[Nn]o clause says\b', 'not guaranteed: ..'],
    ['\bc[ao]mes? of it\b', 'result'],
    ['\bcan\'t be had\b', 'is unavailable'],
);

# Returns a text of the same length and lines with another character for each of its characters.
sub covered {
    my ($text, $by) = @_;
    $text =~ s/[^\n]/$by/g;
    return $text;
}

# Returns a page with its code covered.
sub without_code {
    my ($text, $is_man) = @_;
    if ($is_man) {
        $text =~ s/^(\.Bd -literal.*?^\.Ed)$/covered($1, ' ')/gems;
        $text =~ s/^(\.Dl .*)$/covered($1, ' ')/gem;
        $text =~ s/^(\.(?:It )?(?:Ql|Cm|Li|Fl|Pa|Nm|Sy) .*)$/covered($1, $C)/gem;
        return $text;
    }
    $text =~ s/^(```.*?^```)$/covered($1, ' ')/gems;
    $text =~ s/(`(?:[^`\n]|\n(?!\n))*`)/my $code = $1; covered($code, $code =~ m{\.(?:md|1)`$} ? $P : $C)/ge;
    $text =~ s/(\]\([^()\s]*\))/covered($1, ' ')/ge;
    return $text;
}

my $from = '';
if (@ARGV > 1 && $ARGV[0] eq '--from') {
    shift;
    $from = shift() . '/';
}
my ($found, @counts) = (0);
for my $file (@ARGV) {
    open my $in, '<', $file or do { warn "words: $file: $!\n"; exit 2 };
    my $page = do { local $/; <$in> } // '';
    my $name = index($file, $from) == 0 ? substr $file, length $from : $file;
    my $text = without_code($page, $file =~ /\.1$/);
    my @lines = split /\n/, $page;
    my @hits;
    for my $rule (@RULES) {
        my ($pattern, $write, $except) = @$rule;
        $pattern =~ s/ /\\s+/g;
        while ($text =~ /$pattern/gm) {
            my ($start, $end) = ($-[0], $+[0]);
            my $phrase = substr $page, $start, $end - $start;
            my $line = 1 + (substr($text, 0, $start) =~ tr/\n//);
            next if $except && $lines[$line - 1] =~ $except;
            $phrase =~ s/\s+/ /g;
            $phrase =~ s/^[#*| ]+|[* ]+$//g;
            push @hits, [$start, $end, "$name:$line: $phrase -> $write\n"];
        }
    }
    # Of two phrases that overlap the first is printed.
    my ($count, $from_here) = (0, 0);
    for my $hit (sort { $a->[0] <=> $b->[0] } @hits) {
        next if $hit->[0] < $from_here;
        print $hit->[2];
        $from_here = $hit->[1];
        $count++;
    }
    $found += $count;
    push @counts, sprintf("%5d %s\n", $count, $name) if $count;
}
print @counts, "words: $found found\n";
exit($found ? 1 : 0);
