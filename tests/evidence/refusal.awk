# Reads the log of a refused crate and says what was refused first, 'fact: ..' or 'unfit: ..'. What follows from another refusal is
# passed over. A fact is a statement that does not hold: a goal that fails at named values, two values that computing tells apart, a
# goal that no way proves, also one for which no proof text stands. All else, and what is not known here, is a proof text that does not fit the code or the statement.
function settle(text) {
    what = "unfit"
    if (text ~ /the (goal|part) fails,? at /) what = "fact"
    else if (text ~ /(computed as far as they go|as printed), the two (types|sides) (first differ|differ only|are `)/ && text !~ /(has|other has) `(Prim\.Native\.Nat\.ℕ|[^`]*\.Denot)`/) what = "fact"
    else if (text ~ /`search`: no proof of / && text ~ /Every way was tried/) what = "fact"
    else if (text ~ /so what it leaves must be a path whose two ends are equal/) what = "fact"
    else if (text ~ /^[^ ]*: error: `[^`]*`: expected type `[^`]*`, but this has type `[^`]*`/ && text !~ /tie\.|`[^`]*\?[0-9]/) what = "fact"
    else if (text ~ /^note: [^ ]*: it is not proved that /) what = "fact"
    gsub(/[^ ]*\/must-fail\/[^\/ ]*\/[^\/ ]*\//, "", text)
    gsub(/  +/, " ", text)
    print what ": " substr(text, 1, 240)
    exit
}
# a function that Rattle proves by itself: what its search said stands in the note behind
noted && /^note: what antt said of a `search`/ { head = head " " $0; next }
/^[^ ]/ { if (head != "") { text = head; head = ""; settle(text) } }
/^[^ ]*: error/ && !/was not admitted \(it has holes/ { head = $0; next }
/^[^ ]*: `[^`]*` is not admitted: / { head = $0; next }
/^note: [^ ]*: it is not proved that / { head = $0; noted = 1; next }
head != "" && /^  / { head = head " " $0 }
END { if (what == "" && head != "") settle(head); if (what == "") print "unfit: nothing was refused" }
