#!/bin/sh
# Two banks and a key distribution centre: a key from the centre, and two requests that cross, so that the centre is asked
# once more. distribution_centre.sh [PROGRAM]
. "$(dirname "$0")/session.sh"

echo '# The centre shares a key-encrypting key with each bank, and sends under it. The banks share none.'
run 'x917 init --party CKDX --role distribution --genkey 1F1F1F1F0E0E0E0E0123456789ABCDEF --genseed 0000000000000003'
run 'x917 init --party BANKA --role bank --genkey 0123456789ABCDEFFEDCBA9876543210 --genseed 0000000000000001'
run 'x917 init --party BANKB --role bank --genkey 133457799BBCDFF1FEDCBA9876543210 --genseed 0000000000000002'
run 'x917 load --party CKDX --peer BANKA --label C --side out --key 0123456789ABCDEDFEDCBA9876543212'
run 'x917 load --party BANKA --peer CKDX --label C --side in --key 0123456789ABCDEDFEDCBA9876543212'
run 'x917 load --party CKDX --peer BANKB --label C --side out --key 0123456789ABCDEBFEDCBA9876543214'
run 'x917 load --party BANKB --peer CKDX --label C --side in --key 0123456789ABCDEBFEDCBA9876543214'

echo '# BANKA asks the centre for a key that it shares with BANKB, and hands it on.'
run 'x917 ask --party BANKA --peer CKDX --ultimate BANKB > request.csm'
run 'cat request.csm'
show BANKA
run 'x917 take --party CKDX < request.csm | tee answer.csm | x917 take --party BANKA | tee key.csm | x917 take --party BANKB | x917 take --party BANKA'
run 'cat answer.csm key.csm'
show CKDX BANKA BANKB

echo '# The answer comes once more: nothing waits for it.'
run 'x917 take --party BANKA < answer.csm'

echo '# Both banks ask at the same time, and the answer to BANKB arrives before the key of BANKA.'
run 'x917 ask --party BANKA --peer CKDX --ultimate BANKB | x917 take --party CKDX | x917 take --party BANKA > first.csm'
run 'x917 ask --party BANKB --peer CKDX --ultimate BANKA | x917 take --party CKDX | x917 take --party BANKB > second.csm'
run 'x917 take --party BANKB < first.csm > error.csm'
run 'cat first.csm error.csm'

echo '# BANKA takes the key of BANKB. With the error message it asks the centre once more, from the count that BANKB expects.'
run 'x917 take --party BANKA < second.csm | x917 take --party BANKB'
run 'x917 take --party BANKA < error.csm > again.csm'
run 'cat again.csm'
show BANKA
run 'x917 take --party CKDX < again.csm | tee answer.csm | x917 take --party BANKA | tee key.csm | x917 take --party BANKB | x917 take --party BANKA'
run 'cat answer.csm key.csm'
show CKDX BANKA BANKB
