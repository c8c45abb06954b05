#!/bin/sh
# Tells a scenario and its transcript as one text: a line for each event, with the line of the scenario that gives it.
# day.sh SCENARIO <TRANSCRIPT
exec awk '
    # of a message: its class, and for whom
    function words_of(text,   class, to) {
        class = to = text
        if (text !~ /^CSM\(MCL\//)
            return "other bytes"
        sub(/^CSM\(MCL\//, "", class)
        sub(/[^A-Z].*/, "", class)
        sub(/.*RCV\//, "", to)
        sub(/[^A-Za-z0-9].*/, "", to)
        return (class ~ /^RS[IM]$|^RFS$|^RTR$|^E/ ? "an " : "a ") class " for " to
    }
    function arrives(number, party) {
        if (!(number in text))
            return "no text is there to arrive" (party == "" ? "" : " at " party)
        return "text " number ", " words_of(text[number]) ", arrives" (party == "" ? "" : " at " party)
    }
    function meaning() {
        if ($1 == "START")
            return $2 " sends a data key to " $3 ($4 == "" ? "" : " under " $4)
        if ($1 == "STARTKK")
            return $2 " sends the key-encrypting key " $5 " and a data key to " $3 " under " $4
        if ($1 == "ASK")
            return $2 " asks " $3 " for a data key" ($4 == "" ? "" : " with " $4)
        if ($1 == "TRANSLATE")
            return $2 " asks " $3 " to translate a data key for " $4
        if ($1 == "RESEND")
            return $2 " writes its text to " $3 " again"
        if ($1 == "END")
            return $2 " ends the key " $4 " with " $3
        if ($1 == "DROP")
            return $2 " gives the exchange with " $3 " up"
        if ($1 == "PURGE")
            return $2 " removes the records of ended keys"
        if ($1 == "PASS")
            return arrives($2, $3)
        if ($1 == "RECENT")
            return arrives(texts + 1 - $2, "")
        return "bytes from outside arrive at " $2
    }
    # the transcript, read first: the outcome of each event, and the text that it wrote
    FILENAME == "-" {
        if (/^E[0-9]+ /) {
            at = substr($1, 2)
            outcome[at] = tolower($2) ($3 == "" ? "" : " " $3)
        } else if (/^T[0-9]+ /) {
            wrote[at] = substr($1, 2)
            written[wrote[at]] = substr($0, index($0, " ") + 1)
        }
        next
    }
    $1 == "STOP" { stop = $2; next }
    /^#/ || /^$/ || $1 == "PARTY" || $1 == "LINK" || $1 == "TIME" { next }
    {
        event++
        what = meaning()
        if (!(event in outcome)) {
            printf "%d, line %d: %s: not in the transcript\n", event, FNR, what
            missing = 1
            next
        }
        ended = outcome[event]
        if (ended == "stopped")
            ended = ended " at disk call " stop
        if (event in wrote) {
            texts = wrote[event]
            text[texts] = written[texts]
            ended = ended ", writes text " texts ", " words_of(text[texts])
        }
        printf "%d, line %d: %s: %s\n", event, FNR, what, ended
    }
    END { exit missing }
' - "$1"
