#!/bin/sh
# A gateway hands messages over as a batch, and hands it over again. spool.sh [PROGRAM]
. "$(dirname "$0")/session.sh"

echo '# BANKA sends a key, and the message comes twice.'
run 'x917 init --party BANKA --role bank --genkey 0123456789ABCDEFFEDCBA9876543210 --genseed 0000000000000001'
run 'x917 init --party BANKB --role bank --genkey 133457799BBCDFF1FEDCBA9876543210 --genseed 0000000000000002'
run 'x917 load --party BANKA --peer BANKB --label K1 --side out --key 0123456789ABCDEDFEDCBA9876543212'
run 'x917 load --party BANKB --peer BANKA --label K1 --side in --key 0123456789ABCDEDFEDCBA9876543212'
run 'x917 start --party BANKA --peer BANKB > message'
run 'cat message message > inbox'

echo '# A batch of the two is made, and BANKB takes it: each message has its answer.'
run 'x917 batch < inbox > day'
run 'x917 spool --party BANKB --spool SPLB < day > outbox'
run 'cat outbox'

echo '# The same batch again has the same answers, and nothing happens twice.'
run 'x917 spool --party BANKB --spool SPLB < day > again'
run 'cmp outbox again'
run 'x917 show --party BANKB'

echo '# Another batch wants another spool.'
run 'x917 batch < message > more'
run 'x917 spool --party BANKB --spool SPLB < more'
run 'x917 spool --party BANKB --spool SPLC < more'

echo '# The answers stay in the spool, whatever the party does meanwhile.'
run 'x917 outbox --spool SPLB > again'
run 'cmp outbox again'

echo '# What is no message is in no batch.'
run 'echo OTHERWISE | x917 batch'
