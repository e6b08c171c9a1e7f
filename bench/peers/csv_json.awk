function json(s) {
    if (substr(s, 1, 1) == "\"") { s = substr(s, 2, length(s) - 2); gsub(/""/, "\"", s) }
    if (s ~ /["\\\n\t\r]/) { gsub(/\\/, "&&", s); gsub(/"/, "\\\"", s); gsub(/\n/, "\\n", s); gsub(/\t/, "\\t", s); gsub(/\r/, "\\r", s) }
    return "\"" s "\""
}
{
    line = $0
    while (gsub(/"/, "\"", line) % 2 && (getline more) > 0) line = line "\n" more
    for (k = 1; k <= 3; k++) {
        if (substr(line, 1, 1) == "\"") match(line, /^"([^"]|"")*"/); else match(line, /^[^,]*/)
        field[k] = json(substr(line, 1, RLENGTH)); line = substr(line, RLENGTH + 2)
    }
    print "{\"name\":" field[1] ",\"city\":" field[2] ",\"remark\":" field[3] "}"
}
