#!/usr/bin/perl
# crowd.pl FOLDER NAME   becomes as many processes `sleep NAME` as the file `count` of the folder says, each a child of the
#                        first or of one of a hundred. The file `full` is there once all are
use strict;
use warnings;

my ($folder, $name) = @ARGV;
open my $file, '<', "$folder/count" or die "$folder/count: $!\n";
my $count = <$file> - 1;
close $file;
$0 = "sleep $name";

# have COUNT BODY: forks so many processes, each of which does a body and stays.
sub have {
    my ($number, $body) = @_;
    for my $at (1 .. $number) {
        my $process = fork // die "fork: $!\n";
        next if $process;
        $body->($at);
        sleep 1_000_000;
        exit;
    }
}

pipe my $end, my $start or die "pipe: $!\n";
my $each = int $count / 100;
have($each ? 100 : 0, sub { have($each - 1, sub { }); syswrite $start, 'x' });
have($count - 100 * $each, sub { });
for (1 .. $each ? 100 : 0) { sysread $end, my $byte, 1 }
open $file, '>', "$folder/full" or die "$folder/full: $!\n";
close $file;
sleep 1_000_000;
