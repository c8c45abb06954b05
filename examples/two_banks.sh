#!/bin/sh
# Two banks exchange, refuse, drop and end data keys, each over its own file. two_banks.sh [PROGRAM]
. "$(dirname "$0")/session.sh"

echo '# Each bank gets a file, which its owner alone may read and write.'
run 'x917 init --party BANKA --role bank --genkey 0123456789ABCDEFFEDCBA9876543210 --genseed 0000000000000001'
run 'x917 init --party BANKB --role bank --genkey 133457799BBCDFF1FEDCBA9876543210 --genseed 0000000000000002'
run 'ls -l BANKA.x917 BANKB.x917 | cut -c1-10'
show BANKA

echo '# The same key-encrypting key is loaded at both ends.'
run 'x917 load --party BANKA --peer BANKB --label K1 --side out --key 0123456789ABCDEDFEDCBA9876543212'
run 'x917 load --party BANKB --peer BANKA --label K1 --side in --key 0123456789ABCDEDFEDCBA9876543212'
show BANKA BANKB

echo '# BANKA sends a data key, BANKB takes it, BANKA takes the response.'
run 'x917 start --party BANKA --peer BANKB | tee key.csm | x917 take --party BANKB | tee response.csm | x917 take --party BANKA'
run 'cat key.csm response.csm'
show BANKA BANKB

echo '# The message comes once more: it is refused and answered by an error message, for which BANKA has no use.'
run 'x917 take --party BANKB < key.csm > error.csm'
run 'cat error.csm'
run 'x917 take --party BANKA < error.csm'
show BANKA BANKB

echo '# A message is lost, written again, and given up.'
run 'x917 start --party BANKA --peer BANKB > lost.csm'
run 'x917 start --party BANKA --peer BANKB'
run 'x917 resend --party BANKA --peer BANKB | cmp - lost.csm'
show BANKA
run 'x917 drop --party BANKA --peer BANKB'
show BANKA

echo '# It arrives after all: BANKB holds a key that BANKA gave up, until BANKB ends it.'
run 'x917 take --party BANKB < lost.csm > late.csm'
run 'x917 take --party BANKA < late.csm'
show BANKA BANKB
run 'x917 end --party BANKB --peer BANKA --name BANKA.BANKA.K1.2 | x917 take --party BANKA | x917 take --party BANKB'
show BANKA BANKB

echo '# BANKA ends the first key: disconnection, response. Then both remove the records of ended keys.'
run 'x917 end --party BANKA --peer BANKB --name BANKA.BANKA.K1.1 > disconnect.csm'
run 'cat disconnect.csm'
show BANKA
run 'x917 take --party BANKB < disconnect.csm | tee ended.csm | x917 take --party BANKA'
run 'cat ended.csm'
show BANKA BANKB
run 'x917 purge --party BANKA'
run 'x917 purge --party BANKB'
show BANKA BANKB

echo '# BANKB asks for a key, and BANKA sends one.'
run 'x917 ask --party BANKB --peer BANKA | tee request.csm | x917 take --party BANKA | x917 take --party BANKB | x917 take --party BANKA'
run 'cat request.csm'
show BANKA BANKB

echo '# The error message about a repeat overtakes the response: BANKA ends the key, BANKB holds it.'
run 'x917 start --party BANKA --peer BANKB > key.csm'
run 'x917 take --party BANKB < key.csm > response.csm'
run 'x917 take --party BANKB < key.csm > error.csm'
run 'x917 take --party BANKA < error.csm'
run 'x917 take --party BANKA < response.csm'
show BANKA BANKB

echo '# BANKA removes its record before BANKB ends the key: BANKA refuses the disconnection, and the key stays CLOSING.'
run 'x917 purge --party BANKA'
run 'x917 end --party BANKB --peer BANKA --name BANKA.BANKA.K1.4 > disconnect.csm'
run 'x917 take --party BANKA < disconnect.csm'
show BANKB
run 'x917 drop --party BANKB --peer BANKA'
run 'x917 purge --party BANKB'
show BANKA BANKB
