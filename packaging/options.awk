# The options and operands of a help, as a page of the manual has them: a paragraph for each, with its name and what is said of it.
function escaped(words) {
    gsub(/\\/, "\\e", words)
    gsub(/-/, "\\-", words)
    return words
}

# `-h, --help` and `--drives <D>`, with names in bold and what stands for a value in italics.
function marked(words) {
    words = escaped(words)
    gsub(/\\-+[\\A-Za-z-]+/, "\\fB&\\fP", words)
    gsub(/[<[][^]>]+[]>]/, "\\fI&\\fP", words)
    gsub(/[]<>[]/, "", words)
    return words
}

function put() {
    if (head != "")
        printf ".TP\n%s\n%s\n", marked(head), escaped(text)
    head = ""
}

/^[^ ]/ { put(); is_list = /^(Options|Arguments):/; next }
!is_list { next }
/^  [-<[]/ || /^      --/ {
    put()
    sub(/^ +/, "")
    match($0 "  ", /  +/)
    head = substr($0, 1, RSTART - 1)
    text = substr($0, RSTART + RLENGTH)
    next
}
{ sub(/^ +/, ""); if ($0 != "") text = text " " $0 }
END { put() }
