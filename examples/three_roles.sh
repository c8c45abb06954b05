#!/bin/sh
# Two banks, a key distribution centre and a key translation centre: a key of each kind, what the centres refuse, and the end
# of a key. three_roles.sh [PROGRAM]
. "$(dirname "$0")/session.sh"

echo '# A bank sends under the key of a translation centre, and receives under its own; the centre the other way round.'
run 'x917 init --party BANKA --role bank --genkey 0123456789ABCDEFFEDCBA9876543210 --genseed 0000000000000001'
run 'x917 init --party BANKB --role bank --genkey 133457799BBCDFF1FEDCBA9876543210 --genseed 0000000000000002'
run 'x917 init --party CKDX --role distribution --genkey 1F1F1F1F0E0E0E0E0123456789ABCDEF --genseed 0000000000000003'
run 'x917 init --party CKTX --role translation --genkey FEDCBA98765432100123456789ABCDEF --genseed 0000000000000004'
run 'x917 load --party CKDX --peer BANKA --label C --side out --key 0123456789ABCDEDFEDCBA9876543212'
run 'x917 load --party BANKA --peer CKDX --label C --side in --key 0123456789ABCDEDFEDCBA9876543212'
run 'x917 load --party CKDX --peer BANKB --label C --side out --key 0123456789ABCDEBFEDCBA9876543214'
run 'x917 load --party BANKB --peer CKDX --label C --side in --key 0123456789ABCDEBFEDCBA9876543214'
run 'x917 load --party BANKA --peer CKTX --label C --side out --key 0123456789ABCDE9FEDCBA9876543216'
run 'x917 load --party CKTX --peer BANKA --label C --side in --key 0123456789ABCDE9FEDCBA9876543216'
run 'x917 load --party CKTX --peer BANKB --label C --side out --key 0123456789ABCDE7FEDCBA9876543218'
run 'x917 load --party BANKB --peer CKTX --label C --side in --key 0123456789ABCDE7FEDCBA9876543218'
show CKDX CKTX

echo '# A centre serves no command of a bank but load, and has keys under the label C alone.'
run 'x917 start --party CKDX --peer BANKA'
run 'x917 load --party CKTX --peer BANKA --label K1 --side out --key 0123456789ABCDE5FEDCBA987654321A'

echo '# BANKA draws a key, and the translation centre encrypts it for BANKB.'
run 'x917 translate --party BANKA --peer CKTX --ultimate BANKB > service.csm'
run 'cat service.csm'
show BANKA
run 'x917 take --party CKTX < service.csm > answer.csm'
run 'cat answer.csm'

echo '# The request comes once more: it is refused, and answered by an error message.'
run 'x917 take --party CKTX < service.csm > error.csm'
run 'cat error.csm'
run 'x917 take --party BANKA < answer.csm | tee key.csm | x917 take --party BANKB | x917 take --party BANKA'
run 'cat key.csm'
run 'x917 take --party BANKA < error.csm'
show CKTX BANKA BANKB

echo '# A key of the distribution centre.'
run 'x917 ask --party BANKA --peer CKDX --ultimate BANKB | x917 take --party CKDX | x917 take --party BANKA | x917 take --party BANKB | x917 take --party BANKA'
show CKDX BANKA BANKB

echo '# A request that is given up, and its answer, which comes late.'
run 'x917 ask --party BANKB --peer CKDX --ultimate BANKA | x917 take --party CKDX > late.csm'
run 'x917 drop --party BANKB --peer CKDX'
run 'x917 take --party BANKB < late.csm'

echo '# Keys of centres end as others do, between the banks.'
run 'x917 end --party BANKB --peer BANKA --name CKTX.BANKA.C.1 | x917 take --party BANKA | x917 take --party BANKB'
show BANKA BANKB
