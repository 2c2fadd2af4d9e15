#!/usr/bin/perl
# Makes a client of an API description by Debian's OpenAPI::Client, and calls it: call.pl DESCRIPTION URL [CERTIFICATE CA].
# Each line of the input is a JSON array of an operation and its parameters; each line of the output is one of the status,
# the body and the headers of the answer.
use strict;
use warnings;
use Mojo::JSON qw(decode_json encode_json);
use OpenAPI::Client;

my ($description, $url, $certificate, $ca) = @ARGV;
my $client = OpenAPI::Client->new("file://$description", base_url => $url, coerce => '');
$client->ua->cert($certificate)->key($certificate)->ca($ca) if $certificate;
while (my $line = <STDIN>) {
    my ($operation, $parameters) = @{ decode_json($line) };
    my $answer = $client->call($operation => $parameters)->res;
    print encode_json([0 + $answer->code, $answer->body, $answer->headers->to_hash]), "\n";
}
