# A report to read on a screen: frames first, counts in place of lists of ranks.
#
#     awk -f frames.awk < REPORT
#     ranktree direct --topology job.top --samples job.smp --script job.scr | awk -f frames.awk
#
# A row's number is how many ranks passed there. Two such views can be compared by diff. What is no report, or was cut off, is
# said on standard error, and the status is 2.
function refuse(why) {
    status = 2
    print "frames.awk: " (FILENAME == "" || FILENAME == "-" ? "standard input" : FILENAME) ": line " NR ": " why | "cat 1>&2"
    exit status
}
NR == 1 && !/^stream / { refuse("no report as text") }
{ last = $0 }
/^tree$/ { in_tree = 1; print; next }
/^classes$/ { in_tree = 0; print; next }
in_tree {
    match($0, /^ */)
    indent = substr($0, 1, RLENGTH)
    row = substr($0, RLENGTH + 1)
    count = row
    sub(/:.*/, "", count)
    sub(/^[^ ]+ [^ ]+ /, "", row)
    print indent row "  (" count ")"
    next
}
/^(class|covered|lost|pending|kept) / { sub(/:\[[0-9,-]*\]/, "") }
{ print }
END {
    if (status) exit status
    if (last != "end") refuse(NR ? "the report was cut off: its last line is not `end`" : "the report is empty")
}
