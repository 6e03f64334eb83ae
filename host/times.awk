# What took how long, in seconds: each host test, from what host/test/all said, and rt ci as a whole, whose lines tell no seconds.

/^test: .*: ok \([0-9]+ s\)$/ {
    name = $0
    sub(/^test: /, "", name); sub(/: ok \([0-9]+ s\)$/, "", name)
    match($0, /[0-9]+ s\)$/)
    group[++groups] = name; took[groups] = substr($0, RSTART, RLENGTH - 3) + 0; host += took[groups]
}

END {
    print "What took how long, in seconds:"
    printf "  %6d  rt ci\n", rt
    for (i = 1; i <= groups; i++) printf "  %6d  %s\n", took[i], group[i]
    printf "  %6d  the host tests in all\n  %6d  make test\n", host, whole
}
