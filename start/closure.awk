# Prints a crate and the crates of the repository below it, a line each: awk -f closure.awk -v top=NAME crates.txt

{ sub(/#.*/, "") }

/:/ {
    name = $1
    sub(/:.*/, "", name)
    sub(/^[^:]*:/, "")
    libraries[name] = $0
}

END { reach(top) }

# A library that crates.txt doesn't list is the kit's, and is passed over.
function reach(name, own, count, at) {
    if (!(name in libraries) || name in reached)
        return
    reached[name] = 1
    print name
    count = split(libraries[name], own)
    for (at = 1; at <= count; at++)
        reach(own[at])
}
