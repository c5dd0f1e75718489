# Puts a counter into each block of an LLVM module's text and two behind each comparison, for false and for true; at its end `main` writes all of
# them to descriptor 3, a 0 or a 1 each.
#
#   awk -v crates=' A B .. ' -v counters=FILE -f count.awk MODULE.ll
#
# Counted are the functions of these crates. FILE gets a line for each counter, KIND|WHAT: b for a block, r for the result of a comparison, nothing for what is
# left out, and what is told of it. A block is told by the test that leads to it: _ is what is no constant, and `case N` is the number N, or the case of an
# enum that has N before it. Left out is what the compiler adds: code that no branch leads to, and the arm for a value that its type does not have.
function counter(kind, what) { kinds[++n] = kind; said[n] = what; return "ptr getelementptr (i8, ptr @reached, i64 " n - 1 ")" }
function operand(word) { sub(/,$/, "", word); return word ~ /^%/ ? "_" : word }
function denied(test) { return test ~ /^not / ? substr(test, 5) : "not " test }
function leads(label, test) { gsub(/[%,]/, "", label); reason[label] = ": " test }
BEGIN { split("eq == ne != ult < ule <= ugt > uge >= slt < sle <= sgt > sge >=", word, " "); for (i = 1; i in word; i += 2) sign[word[i]] = word[i + 1] }
/^define / {
    split($0, part, /[@(]/)
    gsub(/"/, "", part[2])
    crate = name = part[2]
    sub(/::.*/, "", crate)
    ours = index(crates, " " crate " ")
    split("", reason)
}
name == "main" && /^  ret / { hand_out = ++lines }
{ text[++lines] = $0 }
/^declare .*@write\(/ { declared = 1 }
/^}/ { ours = 0 }
!ours { next }
/^[^ ]*:/ {
    label = substr($1, 1, length($1) - 1)
    text[++lines] = "  store i8 49, " counter(/; No predecessors!$/ ? "" : "b", name " " label reason[label])
    block = n
    test = "_"
}
/ = icmp / {
    test = operand($6) " " sign[$4] " " operand($7)
    which = times[name, label, test]++ ? " (" times[name, label, test] ")" : ""
    pair = counter("r", name " " label ": always " test which)
    counter("r", name " " label ": never " test which)
    text[++lines] = "  %r." n " = zext i1 " $1 " to i64\n  %c." n " = getelementptr i8, " pair ", i64 %r." n "\n  store i8 49, ptr %c." n
}
/ = call .*i1 @/ { test = $0; sub(/^.*i1 @"?/, "", test); sub(/"?\(.*/, "(_)", test) }
/ = xor i1 .*, true$/ { test = denied(test) }
# the result of a comparison that is branched on is told by the blocks
/^  br i1 / { leads($5, test); leads($7, denied(test)); if (n == block + 2) kinds[n] = kinds[n - 1] = "" }
/^  switch / { leads($5, "no other case") }
/^    i[0-9]+ -?[0-9]+, label / { leads($4, "case " operand($2)) }
/^  unreachable$/ { kinds[block] = "" }
END {
    text[hand_out] = "  call i64 @write(i32 3, ptr @reached, i64 " n ")"
    for (i = 1; i <= lines; i++) print text[i]
    if (!declared) print "declare i64 @write(i32, ptr, i64)"
    for (i = 1; i <= n; i++) { zeros = zeros "0"; print kinds[i] "|" said[i] >counters }
    print "@reached = internal global [" n " x i8] c\"" zeros "\""
}
