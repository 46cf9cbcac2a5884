# Prints the sectors of an image, counted from 0, that `recover` or `deep` may have lost: those of refused blocks that are
# zeros. One that was mastered as zeros is among them.
#     perl lost_sectors.pl IMAGE < REPORT > LOST
# The image is of the Data Zone alone (--zones data). Only its sectors of refused blocks are read.
use strict;
use warnings;

open my $image, '<:raw', shift // die "no image is named\n" or die "the image can't be read: $!\n";
my $bytes;
while (<STDIN>) {
    my ($block) = /^block (\d+) .* saved \d+$/ or next;
    for my $sector (16 * $block .. 16 * $block + 15) {
        seek $image, 2048 * $sector, 0 or die "the image can't be read: $!\n";
        print "$sector\n" if read($image, $bytes, 2048) && $bytes !~ /[^\0]/;
    }
}
