BEGIN { OFS = "\t" }
{
    tag = $5; pid = ""
    sub(/:$/, "", tag)
    if ((k = index(tag, "["))) { pid = substr(tag, k + 1, length(tag) - k - 1); tag = substr(tag, 1, k - 1) }
    print $1, $2, $3, $4, tag, pid, substr($0, index($0, $5) + length($5) + 1)
}
