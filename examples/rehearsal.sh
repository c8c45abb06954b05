#!/bin/sh
# A network on one machine: the scenario beside this file is played, its parties go on by commands, and then come a stop, a
# message that no party of the scenario wrote, and a drill. rehearsal.sh [PROGRAM]
. "$(dirname "$0")/session.sh"
cp "$here/examples/network.scenario" .

echo '# The whole network: the transcript, and the parties as files.'
run 'x917 replay < network.scenario > transcript'
run 'head -n 4 transcript'
run 'tail -n 3 transcript'
run 'ls *.x917'
run 'x917 start --party BANKA --peer BANKB --label K2 | x917 take --party BANKB | x917 take --party BANKA'
run 'x917 show --party BANKA | tail -n 2'

echo '# Where a party stands already, nothing is played.'
run 'x917 replay < network.scenario'
run 'rm *.x917'

echo '# BANKA stops behind the last disk call of a command: the key is sent, but the message did not go out.'
cat >stop.scenario <<'END'
PARTY BANKA BANK 0123456789ABCDEFFEDCBA9876543210 0000000000000001
PARTY BANKB BANK 0123456789ABCDEFFEDCBA9876543210 0000000000000002
LINK BANKA BANKB K1 0123456789ABCDEDFEDCBA9876543212
STOP 5 0
START BANKA BANKB
RECENT 1
RESEND BANKA BANKB
RECENT 1
RECENT 1
END
run 'cat stop.scenario'
run 'x917 replay < stop.scenario | tee transcript'
run 'rm *.x917'

echo '# The same message where no party of the scenario wrote it.'
run 'head -n 3 stop.scenario > stranger.scenario'
run "sed -n 's/^T1 //p' transcript | od -An -v -t x1 | tr -d ' \\n' | sed 's/^/BYTES BANKB /' >> stranger.scenario"
run 'x917 replay < stranger.scenario'
run 'x917 show --party BANKB'

echo '# A line that is none.'
run 'echo "PASS 0 BANKB" | cat stop.scenario - | x917 replay'

echo '# Drills, in memory.'
run 'x917 drill --seed 7 --events 400'
run 'x917 drill --seed 7 --events 0'
