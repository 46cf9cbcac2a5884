# Writes block 0 of each capture, then block 1 of each, and so on, as `merge` reads them.
#     perl in_turn.pl SIZE CAPTURE.. > CAPTURES
# SIZE is that of a block: 37856 in the plain form, 42640 in the marked form. The captures have the same length.
use strict;
use warnings;

my $size = shift // die "no size of a block is given\n";
my @captures = map { open my $capture, '<:raw', $_ or die "$_ can't be read: $!\n"; $capture } @ARGV;
my $bytes;
binmode STDOUT;
for (;;) {
    my @ended = grep {
        my $count = read($_, $bytes, $size) // die "a read failed: $!\n";
        die "a capture ends within a block\n" if $count % $size;
        print $bytes or die "a write failed: $!\n";
        !$count;
    } @captures;
    die "the captures have different lengths\n" if @ended && @ended < @captures;
    last if @ended;
}
close STDOUT or die "a write failed: $!\n";
