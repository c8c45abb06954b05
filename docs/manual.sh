#!/bin/sh
# Prints the manual page with the commands, the messages and the refusals of OPERATOR.md in place of its own.
# manual.sh >NEW, then x917.1 is replaced.
cd "$(dirname "$0")" || exit 1
awk '
    BEGIN {
        split("party ident peer ident ultimate ident ledger ident spool ident mirror ident label label new label role role", word, " ")
        for (i = 1; i in word; i += 2) value[word[i]] = word[i + 1]
        split("name name genkey pair genseed seed key key side side amount amount seed number events number", word, " ")
        for (i = 1; i in word; i += 2) value[word[i]] = word[i + 1]
    }
    # in the manual, words between backticks are bold, and hyphens of options are hyphens
    function line(text) {
        gsub(/-/, "\\-", text)
        while (match(text, /`[^`]*`/))
            text = substr(text, 1, RSTART - 1) "\\fB" substr(text, RSTART + 1, RLENGTH - 2) "\\fR" substr(text, RSTART + RLENGTH)
        return text
    }
    function sentence(text) {
        return line(toupper(substr(text, 1, 1)) substr(text, 2)) ".\n"
    }
    # an item, what it says, and what is written
    function item(head, text, written) {
        return ".IP \"\\fB" head "\\fR\"\n" sentence(text) (written == "" ? "" : sentence("writes " written))
    }
    # a command with its options and their values, broken before column 76
    function synopsis(text,    part, parts, i, bare, shown, out, column) {
        gsub(/`/, "", text)
        parts = split(text, part, " ")
        out = "\\fBx917 " part[1] "\\fR"
        column = length(part[1]) + 5
        for (i = 2; i <= parts; i++) {
            bare = part[i]
            gsub(/[][-]/, "", bare)
            shown = "--" bare (bare in value ? " " value[bare] : "")
            if (column + length(shown) > 72) { out = out "\n   "; column = 4 }
            column += length(shown) + 1
            shown = "\\fB" line("--" bare) "\\fR" (bare in value ? " \\fI" value[bare] "\\fR" : "")
            out = out " " (part[i] ~ /^\[/ ? "[" shown "]" : shown)
        }
        return out "\n"
    }
    FILENAME == "OPERATOR.md" {
        if (/^## /) section = $0
        if (!/^\| /) next
        split($0, cell, / *\| */)
        if (section == "## The refusals" && cell[2] ~ /^[0-9]/)
            page["REFUSALS"] = page["REFUSALS"] ".IP \"\\fB" line(cell[2]) "\\fR\"\n" line(cell[3]) "\n"
        if (section == "## The commands" && cell[2] ~ /^`/) {
            split(cell[2], word, /[` ]/)
            page["COMMANDS"] = page["COMMANDS"] item(word[2], cell[3], cell[4])
            page["SYNOPSIS"] = page["SYNOPSIS"] synopsis(cell[2])
        } else if (section == "## The commands" && cell[2] !~ /^(Command|Message)$/)
            page["MESSAGES"] = page["MESSAGES"] item(cell[2], cell[3], cell[4])
        next
    }
    /^\.SH / {
        title = substr($0, 5)
        replaced = title in page
        if (title == "SYNOPSIS") page[title] = ".nf\n" page[title] "\\fBx917 help\\fR [\\fIcommand\\fR|\\fInumber\\fR]\n.fi\n"
        if (replaced) printf "%s\n%s", $0, page[title]
    }
    !replaced
' OPERATOR.md x917.1
