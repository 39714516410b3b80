# Goes through a file by a TextMate grammar, and compares the scopes with the kinds of the tokens.
#   perl textmate.pl GRAMMAR FILE KINDS
# Prints what differs, and at last how many bytes were compared. It has what this grammar uses: match with captures,
# begin and end with their captures, include of the repository.
use strict;
use warnings;
use JSON::PP;

my ($grammar_path, $file, $kinds) = @ARGV;
my $grammar = decode_json(join '', lines($grammar_path));
my %scopes = (
  comment => 'comment', string => 'string|constant', variable => 'variable', declared => 'entity.name.function.refal0',
  called => 'entity.name.function.call', emission => 'support.function.emission',
  predicate => 'support.type.predicate', angles => 'support.function.angles', mark => 'keyword.operator',
  bracket => 'punctuation');

sub lines {
  open my $handle, '<', shift or die "a file can't be read: $!";
  return <$handle>;
}

# The rules of a list, with what is included in their place.
sub rules {
  return map {
    my $rule = $_;
    if ($rule->{include}) { rules($grammar->{repository}{ substr $rule->{include}, 1 }) }
    elsif (!$rule->{match} && !$rule->{begin}) { rules(@{ $rule->{patterns} }) }
    else { $rule }
  } @_;
}

# Marks bytes of a line with a scope.
sub mark {
  my ($marks, $from, $to, $scope) = @_;
  return unless defined $scope;
  $marks->[$_] = $scope for $from .. $to - 1;
}

my @stack;    # the open rules, the innermost last
my @marks;    # for each line the scopes of its bytes
for my $line (lines($file)) {
  chomp $line;
  my $at = 0;
  my $seen = [];
  while ($at <= length $line) {
    my $open = $stack[-1];
    my @rules = rules($open ? @{ $open->{patterns} || [] } : @{ $grammar->{patterns} });
    my ($best, $from, $to, @parts);
    my $try = sub {
      my ($rule, $expression) = @_;
      pos($line) = $at;
      return unless $line =~ /$expression/g;
      return if defined $from && $-[0] >= $from;
      ($best, $from, $to) = ($rule, $-[0], $+[0]);
      @parts = map { defined $-[$_] ? [ $-[$_], $+[$_] ] : undef } 0 .. $#-;
    };
    $try->('end', $open->{end}) if $open;
    $try->($_, $_->{match} || $_->{begin}) for @rules;
    mark($seen, $at, defined $from ? $from : length $line, $open->{name}) if $open;
    last unless defined $best;
    my $rule = $best eq 'end' ? $open : $best;
    mark($seen, $from, $to, $rule->{name});
    my $captures = $best eq 'end' ? $rule->{endCaptures} : $rule->{begin} ? $rule->{beginCaptures} : $rule->{captures};
    for my $number (keys %{ $captures || {} }) {
      mark($seen, @{ $parts[$number] }, $captures->{$number}{name}) if $parts[$number];
    }
    if ($best eq 'end') { pop @stack }
    elsif ($rule->{begin}) { push @stack, $rule }
    # an empty match at a line's end goes no further
    last if $to == $at && $to == length $line;
    $at = $to > $at ? $to : $at + ($best eq 'end' || $rule->{begin} ? 0 : 1);
  }
  push @marks, $seen;
}

my $count = 0;
for my $entry (lines($kinds)) {
  my ($line, $first, $last, $kind) = split ' ', $entry;
  for my $column ($first .. $last) {
    my $scope = $marks[$line - 1][$column - 1] // 'none';
    $count++;
    print "line $line, column $column: $kind is $scope\n" unless $scope =~ /^(?:$scopes{$kind})/;
  }
}
print "$count bytes\n";
