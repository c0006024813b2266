#!/usr/bin/perl
# What a user would write over Debian's X12::Parser in place of `vanlab answer`: it goes over the loops and counts
# the segments of each set. It compares only counts, and writes one line per set. Run as: parser.pl CONF FILE
use strict;
use warnings;
use X12::Parser;

my ($conf, $file) = @ARGV;
my $parser = X12::Parser->new;
$parser->parsefile(file => $file, conf => $conf);
my $segments = 0;
while (my $loop = $parser->get_next_loop) {
    my @found = $parser->get_loop_segments;
    $segments = 0 if $loop eq 'ST';
    $segments += @found;
    if ($loop eq 'SE') {
        my (undef, $count, $number) = split /\*/, $found[0];
        print $number, $count == $segments ? " A\n" : " R\n";
    }
}
