#!/usr/bin/perl
# Clients of Debian's packages that ask fragment servers. Each line of standard input is a request, with tabs:
#   CLIENT URL MASK TRIPLE   CLIENT is ldf, trine or attean; a place of MASK that is ? is asked for any term
#   sparql URL QUERY         by RDF::Query over RDF::Trine's store
# Each answer is a line `# count N` where the client has counts, the triples or rows, and a line `# end`.
use strict;
use warnings;
use utf8;
use Attean;
use Attean::RDF;
use AtteanX::Store::LDF;
use RDF::LDF;
use RDF::Query;
use RDF::Trine;
use RDF::Trine::Store::LDF;

binmode STDIN,  ':utf8';
binmode STDOUT, ':utf8';
alarm(300);
my $MOST = 2000;
my (%ldf, %trine, %attean);

sub nodes {
    my ($mask, $line) = @_;
    my $found;
    RDF::Trine::Parser->new('turtle')->parse('http://base/', $line, sub { $found = shift });
    my @nodes = ($found->subject, $found->predicate, $found->object);
    return map { substr($mask, $_, 1) eq '?' ? undef : $nodes[$_] } 0 .. 2;
}

sub attean_node {
    my ($node) = @_;
    return undef unless defined $node;
    return Attean::IRI->new($node->value)   if $node->is_resource;
    return Attean::Blank->new($node->value) if $node->is_blank;
    my %more;
    $more{language} = $node->literal_value_language                 if $node->has_language;
    $more{datatype} = Attean::IRI->new($node->literal_datatype)     if $node->has_datatype;
    return Attean::Literal->new(value => $node->literal_value, %more);
}

sub store { my ($url) = @_; return $trine{$url} //= RDF::Trine::Store->new_with_config({ storetype => 'LDF', url => $url }) }

sub answer {
    my ($client, $url, @rest) = @_;
    my $count = 0;
    if ($client eq 'sparql') {
        my $query = RDF::Query->new($rest[0]) or die RDF::Query->error;
        my $rows = $query->execute(RDF::Trine::Model->new(store($url)));
        while (my $row = $rows->next) {
            print join("\t", map { $row->{$_} ? $row->{$_}->as_ntriples : '' } sort keys %$row), "\n";
        }
        return;
    }
    my @nodes = nodes(@rest);
    if ($client eq 'attean') {
        $attean{$url} //= Attean->get_store('LDF')->new(start_url => $url);
        my @asked = map { attean_node($_) } @nodes;
        print '# count ', $attean{$url}->count_triples_estimate(@asked) // 'undef', "\n";
        my $found = $attean{$url}->get_triples(@asked);
        while (my $triple = $found->next) {
            last if $count++ >= $MOST;
            print join(' ', map { $_->ntriples_string } $triple->values), " .\n";
        }
    } elsif ($client eq 'trine') {
        print '# count ', store($url)->count_statements(@nodes) // 'undef', "\n";
        my $found = store($url)->get_statements(@nodes);
        while (my $triple = $found->next) {
            last if $count++ >= $MOST;
            print join(' ', map { $_->as_ntriples } $triple->nodes), " .\n";
        }
    } else {
        $ldf{$url} //= RDF::LDF->new(url => $url);
        my $found = $ldf{$url}->get_statements(@nodes) or return;
        while (my $triple = $found->()) {
            last if $count++ >= $MOST;
            print join(' ', map { $_->as_ntriples } $triple->nodes), " .\n";
        }
    }
}

while (my $line = <STDIN>) {
    chomp $line;
    eval { answer(split /\t/, $line) };
    print '# died ', (split /\n/, $@)[0], "\n" if $@;
    print "# end\n";
}
