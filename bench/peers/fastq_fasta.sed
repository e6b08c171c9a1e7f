s/^@/>/
p
N
s/^.*\n//
p
N
N
d
