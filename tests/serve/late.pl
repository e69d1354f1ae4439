#!/usr/bin/perl
# late.pl HOW WHERE SECONDS WORD   a daemon that is ready after so many seconds, and stays, as `sleep WORD` but for the last two
#
# HOW is `port`, with the port WHERE; `file`, with the file WHERE; `line` on descriptor 3; `message` to NOTIFY_SOCKET; `http` on the
# port WHERE, where the status is 503 before; or `pings` to NOTIFY_SOCKET, five each second until the file WHERE is there.
my ($how, $where, $seconds, $word) = @ARGV;
my $ready = time + $seconds;
my ($UNIX, $INET, $STREAM, $DATAGRAM, $REUSE) = (1, 2, 1, 2, 2);
$^F = 99;    # what is open stays open
alarm 120;   # whatever becomes of the test

sub message {
    my $name = $ENV{NOTIFY_SOCKET} =~ s/^@/\0/r;
    socket(my $socket, $UNIX, $DATAGRAM, 0) or die "$!\n";
    send $socket, $_[0], 0, pack 'S a*', $UNIX, $name or die "$!\n";
}

sub listen_at {
    socket(my $socket, $INET, $STREAM, 0) or die "$!\n";
    setsockopt $socket, 1, $REUSE, pack 'i', 1;
    bind $socket, pack 'S n C4 x8', $INET, $where, 127, 0, 0, 1 or die "$!\n";
    listen $socket, 9 or die "$!\n";
    return $socket;
}

my $socket = $how eq 'http' ? listen_at() : undef;
while ($how eq 'http' && accept my $peer, $socket) {
    sysread $peer, my $request, 4096;
    syswrite $peer, time < $ready ? "HTTP/1.0 503 Not yet\r\n\r\n" : "HTTP/1.0 204 Well\r\n\r\n";
}
select undef, undef, undef, $seconds;
$socket = listen_at() if $how eq 'port';
if ($how eq 'file') { open(my $file, '>', $where) or die "$!\n" }
if ($how eq 'line') { open(my $line, '>&=', 3) or die "$!\n"; syswrite $line, "\n" }
message("STATUS=up\nREADY=1\n") if $how eq 'message' || $how eq 'pings';
while ($how eq 'pings') { message('WATCHDOG=1') if !-e $where; select undef, undef, undef, 0.2 }
alarm 0;
exec 'sleep', $word;
