undef $/;
$_ = <STDIN>;
sub json { my $s = shift; if ($s =~ s/^"(.*)"$/$1/s) { $s =~ s/""/"/g } $s =~ s/([\\"])/\\$1/g; $s =~ s/\n/\\n/g; $s =~ s/\r/\\r/g; $s =~ s/\t/\\t/g; $s }
my $f = qr/"(?:[^"]|"")*"|[^",\n]*/;
while (/\G($f),($f),($f)\n/gc) { print '{"name":"', json($1), '","city":"', json($2), '","remark":"', json($3), "\"}\n" }
