#!/usr/bin/env perl
# Asks a proxy one of whose servers is gone, by Perl's Cache::Memcached or Cache::Memcached::Fast, and prints the results as JSON:
# see lost.py.
#
# Usage: lost.pl KIND PLAN
use strict;
use warnings;
use JSON::PP;
use List::Util qw(max min);
use Time::HiRes qw(time);

my ($kind, $plan) = ($ARGV[0], decode_json($ARGV[1]));
my $server = "$plan->{host}:$plan->{port}";
eval "require $kind" or die $@;
my $client = $kind->new({ servers => [$server] });

my %counts = map { $_ => 0 } @{ $plan->{counts} };
my ($least, $slowest) = (scalar @{ $plan->{living} }, 0);

# The result of a call; the time that it took is noted.
sub timed {
    my ($call) = @_;
    my $begun = time;
    my $given = $call->();
    $slowest = max($slowest, time - $begun);
    return $given;
}

# The result of a get of a key: its value, another one, or nothing. Neither client says whether nothing was a miss.
sub said {
    my ($key) = @_;
    my $value = timed(sub { $client->get($key) });
    return !defined $value ? 'missed' : $value eq "v:$key" ? 'right' : 'wrong';
}

for my $number (0 .. $plan->{rounds} - 1) {
    my ($living, $lost) = map { $plan->{$_}[$number % @{ $plan->{$_} }] } qw(living lost);
    $counts{confirmed}++ if timed(sub { $client->set($lost, "v:$lost") });
    $counts{ 'living ' . said($living) }++;
    $counts{ 'lost ' . said($lost) }++;
    next if $number % 10;
    my $values = timed(sub { scalar $client->get_multi(@{ $plan->{living} }, @{ $plan->{lost} }) }) // {};
    $counts{'pages wrong'}++ if grep { $values->{$_} ne "v:$_" } keys %$values;
    $least = min($least, scalar grep { exists $values->{$_} } @{ $plan->{living} });
}
print encode_json({ %counts, least => $least, slowest => $slowest }), "\n";
