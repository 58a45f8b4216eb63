# Prints a document as it is installed: awk -v name=docs/FILE.md -v documents=FOLDER -v installed='FILE ..' -f page.awk
# NAME is its place in the source, DOCUMENTS the folder where documents are installed, and INSTALLED what is there, by
# its place in the source. The program is called by its name, the scripts of examples/machines by hollowbowl-machines.
# Links to what is not installed become text, and what holds of the source alone is left out: lines between
# `<!-- source -->` and `<!-- end -->`, and sentences about the repository's folder or --unproved.
BEGIN {
    count = split(installed, files, " ")
    for (i = 1; i <= count; i++) is_installed[files[i]] = 1
    up = name ~ /^docs\// ? "../" : ""
}

# link(TEXT, TARGET): what stands in place of [TEXT](TARGET).
function link(text, target, file) {
    if (target ~ /^(https?:|#)/) return "[" text "](" target ")"
    file = target
    sub(/#.*/, "", file)
    if (file ~ /^(\.\.\/)?examples\/machines/) {
        sub(/^(\.\.\/)?examples/, up "../../hollowbowl", target)
        sub(/examples\/machines/, "share/hollowbowl/machines", text)
        return "[" text "](" target ")"
    }
    if (up == "") sub(/^\.\//, "", file)
    else if (!sub(/^\.\.\//, "", file)) file = "docs/" file
    if (file in is_installed) return "[" text "](" target ")"
    return text " (in the source)"
}

# with_links(LINE): the line with each of its links as it is installed.
function with_links(line, out, all, at) {
    while (match(line, /\[[^][]*\]\([^)]*\)/)) {
        all = substr(line, RSTART + 1, RLENGTH - 2)
        at = index(all, "](")
        out = out substr(line, 1, RSTART - 1) link(substr(all, 1, at - 1), substr(all, at + 2))
        line = substr(line, RSTART + RLENGTH)
    }
    return out line
}

# with_commands(LINE): the line with the scripts of examples/machines called as they are installed.
function with_commands(line, out, letter) {
    while (match(line, /examples\/machines\/[a-z]/)) {
        letter = substr(line, RSTART + RLENGTH - 1, 1)
        out = out substr(line, 1, RSTART - 1) "hollowbowl-machines " letter
        line = substr(line, RSTART + RLENGTH)
    }
    return out line
}

# installed_sentences(LINE): the line without the sentences that hold of the source alone.
function installed_sentences(line, out, parts, many, i) {
    many = split(line, parts, /[.] /)
    for (i = 1; i <= many; i++) {
        if (parts[i] !~ /repository's folder|--unproved/) out = out (out == "" ? "" : ". ") parts[i]
    }
    if (out !~ /[.:|]$/) out = out "."
    return out
}

/^<!-- source -->$/ { left_out = 1 }
left_out { if (/^<!-- end -->$/) left_out = 0; next }
/^```/ { fenced = !fenced }
!fenced && /repository's folder|--unproved/ { $0 = installed_sentences($0) }
!fenced { $0 = with_links($0) }
{
    gsub(/\.\/obim_query/, "obim_query")
    print with_commands($0)
}
NR == 1 && uses_examples {
    print "\nInstalled. Commands use the folder `examples`. Copy it into a folder of your own, and run them there:"
    print "\n    cp -r " documents "/examples ."
}
