#!/bin/sh
# An auditor says yes to a transcript, and finds the line that was changed in it. audit.sh [PROGRAM]
. "$(dirname "$0")/session.sh"

cat >day <<'END'
PARTY BANKA BANK 0123456789ABCDEFFEDCBA9876543210 0000000000000001
PARTY BANKB BANK 0123456789ABCDEFFEDCBA9876543210 0000000000000001
LINK BANKA BANKB K1 0123456789ABCDEDFEDCBA9876543212
START BANKA BANKB
PASS 1 BANKB
PASS 2 BANKA
END

echo '# What two banks handed over, and its transcript.'
run 'cat day'
run 'x917 replay < day > transcript'

echo '# It is the transcript of that day; and with a line changed it is not.'
run '(cat day; echo AUDIT -; cat transcript) | x917 audit | head -n 2'
run "(cat day; echo AUDIT -; sed 's/E2 DONE/E2 REFUSED 30/' transcript) | x917 audit"
