BEGIN { FS = OFS = "," }
{ first = $1; $1 = $2; $2 = first; print }
