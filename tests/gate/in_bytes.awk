# Prints a script with each byte that it feeds in a line of its own: a cut never matters. (LC_ALL=C, so that a byte is a byte.)
$1 != "bytes" { print; next }
{
    head = $1 " " $2 " "
    for (at = length(head) + 1; at <= length($0); at += size) {
        size = 1
        if (substr($0, at, 1) == "\\") size = substr($0, at + 1, 1) == "x" ? 4 : 2
        print head substr($0, at, size)
    }
}
