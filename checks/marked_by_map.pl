# Writes a plain capture in the marked form, with marks at the bytes that a map of GNU ddrescue doesn't call rescued ('+').
#     perl marked_by_map.pl CAPTURE.map < CAPTURE > CAPTURE.marked
# The capture is whole rows of 182 bytes. It is read once, a megabyte at a time. Any perl 5 will do.
use strict;
use warnings;
no warnings 'portable'; # maps have numbers of more than 32 bits

my $piece = 182 * 5762;

# The ranges that were not rescued, in their order, as [first byte, first byte after].
open my $map, '<', shift // die "no map is named\n" or die "the map can't be read: $!\n";
my @lines = grep { !/^\s*(#|$)/ } <$map>;
shift @lines; # where ddrescue was
my $end = 0;
my @lost;
for (@lines) {
    my ($from, $size, $state) = split;
    ($from, $size) = map { /^0x/i ? hex : $_ } $from, $size;
    push @lost, [$from, $from + $size] if $state ne '+';
    $end = $from + $size;
}
push @lost, [$end, 9e15]; # what the map doesn't name

binmode STDIN;
binmode STDOUT;
my ($at, $bytes) = (0);
while (my $size = read STDIN, $bytes, $piece) {
    die "the capture ends within a row\n" if $size % 182;
    shift @lost while $lost[0][1] <= $at;
    if ($lost[0][0] >= $at + $size) {
        print join "\0" x 23, unpack('(a182)*', $bytes), '' or die "a write failed: $!\n";
        $at += $size;
        next;
    }
    # a digit for each byte of the piece, 1 where it is lost
    my $digits = '0' x $size;
    for my $range (@lost) {
        my ($from, $to) = map { $_ - $at } @$range;
        last if $from >= $size;
        $from = 0 if $from < 0;
        $to = $size if $to > $size;
        substr $digits, $from, $to - $from, '1' x ($to - $from);
    }
    my @marks = unpack '(a182)*', $digits;
    print map({ $_, pack 'B184', shift @marks } unpack '(a182)*', $bytes) or die "a write failed: $!\n";
    $at += $size;
}
close STDOUT or die "a write failed: $!\n";
