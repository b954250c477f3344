# The lines of standard input in the order of Unicode::Collate's keys at its third level.
use strict;
use warnings;
use open qw(:std :encoding(UTF-8));
use Unicode::Collate;

chomp(my @names = <STDIN>);
print "$_\n" for Unicode::Collate->new(level => 3)->sort(@names);
