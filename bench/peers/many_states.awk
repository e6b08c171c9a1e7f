{ print (length($0) >= 11 && substr($0, length($0) - 10, 1) == "a" ? "1 " : "0 ") $0 }
