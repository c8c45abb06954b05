#!/bin/sh
# A bank is asked for two data keys in one message; they end one by one. two_keys.sh [PROGRAM]
. "$(dirname "$0")/session.sh"

echo '# Two banks share the key-encrypting key K1.'
run 'x917 init --party BANKA --role bank --genkey 0123456789ABCDEFFEDCBA9876543210 --genseed 0000000000000001'
run 'x917 init --party BANKB --role bank --genkey 133457799BBCDFF1FEDCBA9876543210 --genseed 0000000000000002'
run 'x917 load --party BANKA --peer BANKB --label K1 --side out --key 0123456789ABCDEDFEDCBA9876543212'
run 'x917 load --party BANKB --peer BANKA --label K1 --side in --key 0123456789ABCDEDFEDCBA9876543212'

echo '# BANKB asks for two keys, and both come in one message.'
run "echo 'CSM(MCL/RSI RCV/BANKA ORG/BANKB SVR/KD.KD EDC/AB1B4979)' > two.rsi"
run 'x917 take --party BANKA < two.rsi > two.csm'
run 'cat two.csm'
show BANKA
run 'x917 take --party BANKB < two.csm > both.csm'
show BANKB
run 'x917 take --party BANKA < both.csm'
show BANKA

echo '# The second one ends, the first one stays.'
run 'x917 end --party BANKB --peer BANKA --name BANKA.BANKA.K1.2 | x917 take --party BANKA | x917 take --party BANKB'
show BANKA BANKB

echo '# Two more are given up: both end.'
run 'x917 take --party BANKA < two.rsi > lost.csm'
run 'x917 drop --party BANKA --peer BANKB'
show BANKA
