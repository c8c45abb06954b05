#!/bin/sh
# Two banks replace a key-encrypting key: one that arrives, one that is lost and given up. new_key.sh [PROGRAM]
. "$(dirname "$0")/session.sh"

echo '# Two banks share the key-encrypting key K1.'
run 'x917 init --party BANKA --role bank --genkey 0123456789ABCDEFFEDCBA9876543210 --genseed 0000000000000001'
run 'x917 init --party BANKB --role bank --genkey 133457799BBCDFF1FEDCBA9876543210 --genseed 0000000000000002'
run 'x917 load --party BANKA --peer BANKB --label K1 --side out --key 0123456789ABCDEDFEDCBA9876543212'
run 'x917 load --party BANKB --peer BANKA --label K1 --side in --key 0123456789ABCDEDFEDCBA9876543212'

echo '# BANKA sends a new one, K2, under K1, and a data key under K2. It waits until the response is taken.'
run 'x917 startkk --party BANKA --peer BANKB --label K1 --new K2 | tee new-key.csm | x917 take --party BANKB > response.csm'
run 'cat new-key.csm response.csm'
show BANKA BANKB
run 'x917 take --party BANKA < response.csm'
show BANKA

echo '# From now on K2 is named.'
run 'x917 start --party BANKA --peer BANKB --label K2 | tee key.csm | x917 take --party BANKB | x917 take --party BANKA'
run 'cat key.csm'
show BANKA BANKB

echo '# A single key is lost on its way, and given up: its link is gone, its label free, the count used.'
run 'x917 startkk --party BANKA --peer BANKB --label K2 --new K3 --single > lost.csm'
run 'cat lost.csm'
run 'x917 resend --party BANKA --peer BANKB | cmp - lost.csm'
run 'x917 drop --party BANKA --peer BANKB'
show BANKA

echo '# It arrives after all. The next try under its label is refused at BANKB, and BANKA gives it up; another label does.'
run 'x917 take --party BANKB < lost.csm > late.csm'
run 'x917 startkk --party BANKA --peer BANKB --label K2 --new K3 | x917 take --party BANKB > error.csm'
run 'cat error.csm'
run 'x917 take --party BANKA < error.csm'
run 'x917 startkk --party BANKA --peer BANKB --label K2 --new K4 | x917 take --party BANKB | x917 take --party BANKA'
show BANKA BANKB
