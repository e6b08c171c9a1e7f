{
    out = ""
    while ((n = length($0)) > 3) { out = "," substr($0, n - 2) out; $0 = substr($0, 1, n - 3) }
    print $0 out
}
