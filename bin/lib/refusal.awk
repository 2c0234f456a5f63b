# If the prover stopped first at a wrong body, from the first line that it said of it: the goal, and the file of it.
{
    sub(/^: /, "")
    sub(/^note: /, "")
    sub(/^\.\//, "")
    file = $0
    sub(/:.*/, "", file)
    sub(/\/[A-Za-z]*\.antt$/, "", file)
    goal = ""
    if (match($0, /`[a-z][A-Za-z0-9_+-]*`/)) goal = substr($0, RSTART, RLENGTH)
    print (goal == "" ? "" : goal " in ") "`" file "`"
}
