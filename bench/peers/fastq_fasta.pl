while (my $name = <STDIN>) { my $bases = <STDIN>; <STDIN>; <STDIN>; substr($name, 0, 1) = ">"; print $name, $bases }
