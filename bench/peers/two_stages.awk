{ sub(/[ \t\r]+$/, "") }
length($0) { print; empty = 0; any = 1; next }
!empty { if (any) print; empty = 1 }
